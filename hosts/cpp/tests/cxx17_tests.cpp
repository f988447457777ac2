// The headers as C++17 has them: over a span of their own, and without exceptions. What they define here stands in one
// program with what the other tests, which are C++20, have of them.

#if defined(__cpp_exceptions) || __cplusplus >= 202002L
#error "this file is compiled as C++17, and without exceptions"
#endif

#include <algorithm>
#include <array>
#include <string>
#include <type_traits>
#include <vector>

#include "check.hpp"
#include "tikomuci_builder.hpp"
#include "tikomuci_cache.hpp"
#include "walk.hpp"

namespace host {

// A span that a host has of its own.
struct Span {
    const std::uint8_t *bytes = nullptr;
    std::size_t count = 0;

    [[nodiscard]] const std::uint8_t *data() const { return bytes; }
    [[nodiscard]] std::size_t size() const { return count; }
};

}  // namespace host

template <>
inline constexpr bool tikomuci::is_borrowed<host::Span> = true;

namespace {

using tikomuci::Bytes;
using tikomuci::Output;
using tikomuci::Reader;

static_assert(std::is_constructible_v<Reader, host::Span> && std::is_constructible_v<Reader, Bytes>);
static_assert(std::is_constructible_v<Reader, Wire &> && !std::is_constructible_v<Reader, Wire>);
static_assert(std::is_convertible_v<Output, Bytes> && !std::is_convertible_v<Bytes, Output>);
static_assert(std::is_constructible_v<Bytes, Wire> && !std::is_constructible_v<Output, Wire>);
static_assert(!std::is_constructible_v<Output, const Wire &> && !std::is_constructible_v<Bytes, std::vector<int> &>);

bool same(Bytes a, const Wire &b) { return std::equal(a.begin(), a.end(), b.begin(), b.end()); }

void spans() {
    Wire bytes = {1, 2, 3, 4};
    const Output all(bytes);
    expect(all.size() == 4 && all.size_bytes() == 4 && !all.empty() && all.data() == bytes.data(), "a span");
    expect(all.front() == 1 && all.back() == 4 && all[2] == 3, "elements of a span");
    expect(same(all.first(2), {1, 2}) && same(all.last(1), {4}) && same(all.subspan(1), {2, 3, 4}) &&
               same(all.subspan(1, 2), {2, 3}),
           "parts of a span");
    expect(Bytes().empty() && all.subspan(4).empty() && all.first(0).data() == bytes.data(), "spans of nothing");
    const std::array<std::uint8_t, 2> array = {5, 6};
    const std::uint8_t plain[] = {7, 8, 9};
    expect(same(array, {5, 6}) && same(plain, {7, 8, 9}), "spans of arrays");
}

void numbers_and_views() {
    std::array<std::byte, 8> out{};
    tikomuci::Writer writer(out);
    const std::vector<std::int32_t> values = {-1};
    expect(writer.varint(300) && writer.le_var_size(values) && writer.tell() == 7, "numbers written");
    Reader reader(out);
    const auto number = reader.varint();
    const auto list = reader.le_var_size_i32();
    expect(number && *number == 300 && list && same(*list, Wire(4, 0xFF)), "numbers read");
    const Wire file = every_table();
    const auto constant = tikomuci::constant(host::Span{file.data(), file.size()}, 0);
    expect(constant && constant->data() == file.data() + 80 && constant->size() == 3, "a constant viewed");
    expect(tikomuci::constant(file, 1).outcome() == ABSENT, "a constant that is not there");
    expect(tikomuci::section(file, tikomuci::Section::Producer).value_or(Bytes()).size() == 1, "a section viewed");
}

void tables() {
    const auto tables = tikomuci::read(every_table());
    expect(static_cast<bool>(tables), "tables read");
    Wire words(1 + 49 * 8);
    Wire pool(12);
    const auto lent = tikomuci::read_sheet(every_table(), Output(words).subspan(1), pool);
    expect(lent && walk::by_range(*lent) == walk::by_range(tables->sheet()) &&
               walk::by_number(*lent) == walk::by_number(tables->sheet()),
           "rows over stores of both kinds");
    const tikomuci::Builder builder(tables->sheet());
    const auto file = builder.file();
    expect(file && same(tables->sheet().bytes(), builder.sheet()), "rows built again");
    std::array<std::byte, 11> out{};
    const auto length = tikomuci::type_text(builder.sheet(), 1, out);
    const auto text = tables->sheet().type_text(1);
    expect(length && *length == out.size() && text && text->view() == "(i32) -> ()", "the text of a type");
    expect(!tikomuci::read(Wire{1, 2, 3}), "no tables");
}

void caches() {
    const Wire file = every_table();
    std::vector<std::byte> slots(TIKOMUCI_CACHE_SLOTS * file.size());
    std::array<std::uint8_t, TIKOMUCI_CACHE_SLOTS * TIKOMUCI_OWNER_BYTES> owners{};
    const auto slot = tikomuci::cache_put(slots, owners, 5, host::Span{file.data(), file.size()});
    const auto constant = tikomuci::cache_fetch(slots, owners, 5, 0);
    expect(slot && *slot == 0 && constant && same(*constant, {0xDE, 0xAD, 0xBE}), "a cache over lent stores");
    expect(tikomuci::holders(owners).size() == 1 && tikomuci::cache_drop(slots, owners, 5), "and its slot is freed");

    auto cache = tikomuci::ProfileCache::make(file.size());
    expect(cache && cache->put(5, file), "a cache with a lock");
    std::array<std::byte, 3> into{};
    const auto length = cache->fetch(5, 0, into);
    expect(length && *length == 3 && into[0] == std::byte{0xDE}, "a constant that is copied");
    const auto held = cache->try_fetch(5, 0);
    expect(held && same(held->bytes(), {0xDE, 0xAD, 0xBE}), "a constant that is held");
}

}  // namespace

void cxx17_tests() {
    spans();
    numbers_and_views();
    tables();
    caches();
}
