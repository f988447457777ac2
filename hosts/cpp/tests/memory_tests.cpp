// Tests of what asks for memory: only reading a file into tables, the text of a type that is not lent any, and making a
// cache do, and they answer where there is none.

#include <cstdlib>
#include <new>
#include <string>
#include <vector>

#include "check.hpp"
#include "tikomuci_cache.hpp"
#include "tikomuci_tables.hpp"
#include "walk.hpp"

namespace {

// How often memory was asked for, and how often more is given.
std::size_t asked = 0;
std::size_t given = std::numeric_limits<std::size_t>::max();

void *memory(std::size_t size) noexcept {
    ++asked;
    if (given == 0) {
        return nullptr;
    }
    --given;
    return std::malloc(size == 0 ? 1 : size);
}

void *memory_or_throw(std::size_t size) {
    if (void *const got = memory(size)) {
        return got;
    }
    throw std::bad_alloc();
}

}  // namespace

void *operator new(std::size_t size) { return memory_or_throw(size); }
void *operator new[](std::size_t size) { return memory_or_throw(size); }
void *operator new(std::size_t size, const std::nothrow_t &) noexcept { return memory(size); }
void *operator new[](std::size_t size, const std::nothrow_t &) noexcept { return memory(size); }
void operator delete(void *place) noexcept { std::free(place); }
void operator delete[](void *place) noexcept { std::free(place); }
void operator delete(void *place, std::size_t) noexcept { std::free(place); }
void operator delete[](void *place, std::size_t) noexcept { std::free(place); }

namespace {

using tikomuci::Outcome;
using tikomuci::Refusal;
using tikomuci::Stage;

// How often something asks for memory.
template <typename Do>
std::size_t asks(Do what) {
    const std::size_t before = asked;
    what();
    return asked - before;
}

void nothing_is_allocated() {
    const Wire file = every_table();
    Wire words(49 * 8);
    Wire pool(12);
    Wire image(200);
    std::vector<std::uint32_t> index(7);
    bool right = true;
    std::size_t rows = 0;
    const std::size_t often = asks([&] {
        auto sheet = tikomuci::read_sheet(file, words, pool);
        right = sheet && sheet->index(index) && tikomuci::constant(file, 0) && tikomuci::section(file, 1) &&
                tikomuci::write(words, pool, image) && tikomuci::Reader(file).varint() && sheet->type_text(1, image);
        for (const auto &function : sheet->functions()) {
            rows += function.body.size() + sheet->string(function.name)->size();
        }
        for (const auto &type : sheet->types()) {
            rows += type.kind.index();
        }
    });
    expect(right && rows == 4 + 4 + 7 && often == 0, "views, rows and writing ask for no memory");
    expect(asks([&] { right = static_cast<bool>(tikomuci::read(file)); }) == 2 && right,
           "tables ask for their stores and their index");
    expect(asks([&] { right = static_cast<bool>(tikomuci::type_text(words, 1)); }) == 1 && right,
           "the text of a type asks for its own");
}

void no_memory() {
    const Wire file = every_table();
    for (std::size_t times = 0; times < 2; ++times) {
        given = times;
        const Outcome outcome = tikomuci::read(file).outcome();
        given = std::numeric_limits<std::size_t>::max();
        expect(outcome == Outcome{Refusal::Memory, Stage::Call}, "tables where there is no memory");
    }
    Wire damaged = file;
    damaged[0] = 0;
    given = 0;
    const Outcome outcome = tikomuci::read(damaged).outcome();
    given = std::numeric_limits<std::size_t>::max();
    expect(outcome == Outcome{Refusal::Magic, Stage::Header}, "a refused file asks for none");
    const Wire sheet = little_endian(every_table_sheet());
    given = 0;
    const Outcome text = tikomuci::type_text(sheet, 1).outcome();
    given = std::numeric_limits<std::size_t>::max();
    expect(text == Outcome{Refusal::Memory, Stage::Call}, "the text of a type where there is no memory");
}

// A cache asks for its slots and for what holds them with the lock, and no call on it asks for more.
void caches() {
    const Wire file = every_table();
    Wire into(3);
    tikomuci::Got<tikomuci::ProfileCache> cache{tikomuci::ProfileCache()};
    expect(asks([&] { cache = tikomuci::ProfileCache::make(150); }) == 2 && cache, "a cache asks for its stores");
    bool right = true;
    const std::size_t often = asks([&] {
        right = cache->put(1, file) && cache->fetch(1, 0, into) && cache->try_fetch(1, 0, into);
        right = right && static_cast<bool>(cache->fetch(1, 0));
        right = right && static_cast<bool>(cache->try_fetch(1, 0));
        right = right && cache->holders().size() == 1 && cache->drop(1);
    });
    expect(right && often == 0, "the calls on a cache ask for no memory");
    for (std::size_t times = 0; times < 2; ++times) {
        given = times;
        const Outcome outcome = tikomuci::ProfileCache::make(150).outcome();
        given = std::numeric_limits<std::size_t>::max();
        expect(outcome == Outcome{Refusal::Memory, Stage::Call}, "a cache where there is no memory");
    }
}

}  // namespace

void memory_tests() {
    nothing_is_allocated();
    no_memory();
    caches();
}
