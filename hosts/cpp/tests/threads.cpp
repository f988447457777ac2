// threads FILE..: sixty threads at once. Each reads shared files into stores of its own, views rows of its own number,
// makes the texts of all types, and reads and writes a file of its own in stores that stand side by side with those of
// its neighbours, in one allocation. Run under a thread sanitizer, it shows that no call keeps anything, or touches
// what another one was lent.

#include <algorithm>
#include <cstdio>
#include <cstdlib>
#include <fstream>
#include <iterator>
#include <latch>
#include <string>
#include <thread>
#include <vector>

#include "check.hpp"
#include "tikomuci_builder.hpp"

namespace {

using tikomuci::Builder;
using tikomuci::Bytes;
using tikomuci::Output;

constexpr std::uint64_t THREADS = 60;
constexpr int ROUNDS = 30;
constexpr std::uint64_t SECTIONS = 7;

// A file, and what every reading of it has to get.
struct Known {
    Wire file;
    tikomuci::Size size;
    Wire sheet;
    Wire pool;
    std::vector<tikomuci::Got<Bytes>> sections;
    std::vector<Wire> types;
};

bool same(Bytes a, Bytes b) { return std::equal(a.begin(), a.end(), b.begin(), b.end()); }

// The texts of the types of a sheet, up to the first that is not there or does not fit.
std::vector<Wire> types_of(Bytes sheet) {
    std::vector<Wire> texts;
    Wire text(tikomuci::TYPE_TEXT_BYTES);
    while (const auto size = tikomuci::type_text(sheet, texts.size(), text)) {
        texts.emplace_back(text.begin(), text.begin() + static_cast<std::ptrdiff_t>(*size));
    }
    return texts;
}

// What one reading gets, before the threads start.
Known read(Wire file) {
    Known got{std::move(file), {}, {}, {}, {}, {}};
    got.size = tikomuci::measure(got.file).value_or(tikomuci::Size{});
    got.sheet.resize(got.size.words * 8);
    got.pool.resize(got.size.bytes);
    if (!tikomuci::read(got.file, got.sheet, got.pool)) {
        std::fprintf(stderr, "threads: a file is refused\n");
        std::exit(EXIT_FAILURE);
    }
    for (std::uint64_t id = 1; id <= SECTIONS; ++id) {
        got.sections.push_back(tikomuci::section(got.file, id));
    }
    got.types = types_of(got.sheet);
    return got;
}

// The bytes of a row that no other row has: the kind, the number, and as many more as its number says.
Wire row(std::uint8_t kind, std::uint64_t number) {
    Wire bytes = {kind, static_cast<std::uint8_t>(number)};
    bytes.resize(bytes.size() + number, static_cast<std::uint8_t>(kind + number));
    return bytes;
}

// A file with these rows.
Known rows(std::uint64_t first, std::uint64_t last) {
    Builder tables({13, 4, 0});
    for (std::uint64_t number = first; number < last; ++number) {
        const std::uint64_t name = tables.string(row('s', number));
        tables.constant(row('c', number));
        tables.function({name, 0, 0, 0, row('b', number)});
        tables.tile(number - first - 1, {static_cast<std::int64_t>(number)});
    }
    return read(tables.file().value_or(Wire()));
}

bool same_tables(const Known &shared) {
    Wire sheet(shared.sheet.size());
    Wire pool(shared.pool.size());
    const auto measured = tikomuci::measure(shared.file);
    const auto size = tikomuci::read(shared.file, sheet, pool);
    return measured && size && *measured == shared.size && *size == shared.size && sheet == shared.sheet &&
           pool == shared.pool;
}

bool same_sections(const Known &shared) {
    for (std::uint64_t id = 1; id <= SECTIONS; ++id) {
        const auto &wanted = shared.sections[id - 1];
        const auto got = tikomuci::section(shared.file, id);
        if (got.outcome() != wanted.outcome() || !same(got.value_or(Bytes{}), wanted.value_or(Bytes{}))) {
            return false;
        }
    }
    return true;
}

bool same_image(const Known &shared) {
    Wire image(tikomuci::image(shared.sheet).value_or(0));
    return tikomuci::write(shared.sheet, shared.pool, image) && image == shared.file;
}

bool own_rows(Bytes file, std::uint64_t number) {
    const auto string = tikomuci::string(file, number);
    const auto constant = tikomuci::constant(file, number);
    const auto body = tikomuci::body(file, number);
    return string && same(*string, row('s', number)) && constant && same(*constant, row('c', number)) && body &&
           same(*body, row('b', number));
}

// A thread's own file, and its stores in the one allocation.
struct Slot {
    Known own;
    Output sheet;
    Output pool;
    Output image;

    [[nodiscard]] bool holds() const { return same(sheet, own.sheet) && same(pool, own.pool) && same(image, own.file); }
};

// No store begins where a word of the allocation does, but by chance.
std::vector<Slot> slots(Wire &memory) {
    std::vector<Slot> slots;
    std::size_t size = 1;
    for (std::uint64_t number = 0; number < THREADS; ++number) {
        slots.push_back({rows(number, number + 1), {}, {}, {}});
        const Known &own = slots.back().own;
        size += own.sheet.size() + own.pool.size() + own.file.size();
    }
    memory.assign(size, CANARY);
    Output rest = Output(memory).subspan(1);
    const auto take = [&](std::size_t count) {
        const Output taken = rest.first(count);
        rest = rest.subspan(count);
        return taken;
    };
    for (Slot &slot : slots) {
        slot.sheet = take(slot.own.sheet.size());
        slot.pool = take(slot.own.pool.size());
        slot.image = take(slot.own.file.size());
    }
    return slots;
}

bool own_stores(const Slot &slot) {
    std::fill(slot.sheet.begin(), slot.sheet.end(), CANARY);
    std::fill(slot.pool.begin(), slot.pool.end(), CANARY);
    std::fill(slot.image.begin(), slot.image.end(), CANARY);
    return tikomuci::read(slot.own.file, slot.sheet, slot.pool) && tikomuci::write(slot.sheet, slot.pool, slot.image) &&
           slot.holds();
}

// How many of the rounds of a thread got something else.
int wrong_rounds(const std::vector<Known> &files, const Slot &slot, std::uint64_t number) {
    int wrong = 0;
    for (int round = 0; round < ROUNDS; ++round) {
        const bool right = own_rows(files[0].file, number) && own_stores(slot) &&
                           std::all_of(files.begin(), files.end(), [](const Known &shared) {
                               return same_tables(shared) && same_sections(shared) && same_image(shared) &&
                                      types_of(shared.sheet) == shared.types;
                           });
        wrong += right ? 0 : 1;
    }
    return wrong;
}

std::vector<Known> shared_files(int count, char **paths) {
    std::vector<Known> files;
    files.push_back(rows(0, THREADS));
    for (int i = 0; i < count; ++i) {
        std::ifstream in(paths[i], std::ios::binary);
        files.push_back(read(Wire(std::istreambuf_iterator<char>(in), {})));
    }
    return files;
}

}  // namespace

int main(int count, char **arguments) {
    const std::vector<Known> files = shared_files(count - 1, arguments + 1);
    Wire memory;
    const std::vector<Slot> own = slots(memory);
    std::vector<int> wrong(THREADS, 0);
    std::latch start(THREADS);
    std::vector<std::jthread> threads;
    for (std::uint64_t number = 0; number < THREADS; ++number) {
        threads.emplace_back([&, number] {
            start.arrive_and_wait();
            wrong[number] = wrong_rounds(files, own[number], number);
        });
    }
    threads.clear();
    const auto mistaken = std::count_if(wrong.begin(), wrong.end(), [](int rounds) { return rounds != 0; });
    const auto spoilt = std::count_if(own.begin(), own.end(), [](const Slot &slot) { return !slot.holds(); });
    std::printf(
        "%zu threads, %d rounds over %zu shared files, and stores side by side: %td threads got bytes that were not "
        "theirs, %td stores hold others\n",
        wrong.size(), ROUNDS, files.size(), mistaken, spoilt);
    return mistaken == 0 && spoilt == 0 && memory[0] == CANARY ? EXIT_SUCCESS : EXIT_FAILURE;
}
