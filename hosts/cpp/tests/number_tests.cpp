// Tests of the library from C++: worked examples by name, and each call over numbers at the edge of its room, between
// pages that nothing may touch.

#include <algorithm>
#include <array>
#include <cmath>
#include <cstdio>
#include <cstdlib>
#include <initializer_list>
#include <limits>
#include <string>
#include <vector>

#include "guarded.hpp"

extern "C" const char *header_fault(void);
void file_tests();
void table_tests();
void write_tests();
void builder_tests();
void type_text_tests();
void type_stack_tests();
void guard_tests();
void cache_tests();
void cache_guard_tests();
void profile_cache_tests();
void format_tests();
void memory_tests();
void cxx17_tests();
void cxx23_tests();
void released_tests();

namespace {

using tikomuci::Bytes;
using tikomuci::Outcome;
using tikomuci::outcome_of;
using tikomuci::Output;
using tikomuci::Reader;
using tikomuci::Refusal;
using tikomuci::Section;
using tikomuci::Stage;
using tikomuci::Writer;

constexpr Outcome SHORT{Refusal::Short, Stage::Call};
constexpr Outcome OVERLONG{Refusal::Overlong, Stage::Call};
constexpr Outcome PADDING{Refusal::Padding, Stage::Call};

// What is written to, what is read, and what a writer is lent, each at a page that nothing may touch.
struct Memories {
    Guarded out{1};
    Guarded data{1};
    Guarded lent{1};
};

Memories &memories() {
    static Memories all;
    return all;
}

// Writes with `write` into each room from 0 to one more than the spelling needs, and into a place past the output: all
// that is too small is refused and untouched, the rest holds the spelling and nothing else changed.
template <typename Write>
void writes_at(Side side, const std::string &what, const Wire &spelling, Write write) {
    Guarded &memory = memories().out;
    const std::size_t before = 2;
    for (std::size_t room = 0; room <= spelling.size() + 1; ++room) {
        const Output out = memory.store(before + room, side);
        Writer writer(out, before);
        const Outcome outcome = write(writer);
        const bool fits = spelling.size() <= room;
        Wire wanted(before, CANARY);
        if (fits) {
            wanted.insert(wanted.end(), spelling.begin(), spelling.end());
        }
        const std::string where = what + " in a room of " + std::to_string(room);
        expect(outcome == (fits ? Outcome{} : FULL), where + ": the outcome");
        expect(memory.holds(out, wanted), where + ": the bytes");
        expect(writer.tell() == (fits ? before + spelling.size() : before), where + ": the next place");
    }
    const Output out = memory.store(1, side);
    Writer past(out, 2);
    expect(write(past) == FULL && memory.holds(out, {}), what + " past the output");
}

template <typename Write>
void writes(const std::string &what, const Wire &spelling, Write write) {
    for (const Side side : SIDES) {
        writes_at(side, what, spelling, write);
    }
}

template <typename Value>
bool matches(const Value &got, const Value &wanted) {
    return got == wanted;
}

bool matches(Bytes got, const Wire &wanted) { return std::equal(got.begin(), got.end(), wanted.begin(), wanted.end()); }

// Reads at place `at` of `wire`, and of each part of it that ends sooner: at a guard, and beside bytes that would
// complete it.
template <typename Value, typename Read>
void reads_at(Side side, const std::string &what, const Wire &wire, std::size_t at, const Value &value, Read read) {
    Guarded &memory = memories().data;
    for (std::size_t size = at; size <= wire.size(); ++size) {
        const Wire cut(wire.begin(), wire.begin() + static_cast<std::ptrdiff_t>(size));
        Reader reader(side == Side::Begin ? memory.lent(wire, side).first(size) : memory.lent(cut, side), at);
        const auto got = read(reader);
        const std::string where = what + " in " + std::to_string(size) + " bytes";
        if (size == wire.size()) {
            expect(got && matches(*got, value), where + ": the value");
            expect(reader.tell() == size && reader.remaining() == 0, where + ": the next place");
        } else {
            expect(got.outcome() == SHORT, where + ": the outcome");
            expect(reader.tell() == at && reader.remaining() == size - at, where + ": the place stays");
        }
    }
    Reader past(memory.lent(wire, side), wire.size() + 1);
    expect(read(past).outcome() == SHORT && past.remaining() == 0, what + " past the data");
}

template <typename Value, typename Read>
void reads(const std::string &what, const Wire &wire, const Value &value, Read read, std::size_t at = 0) {
    for (const Side side : SIDES) {
        reads_at(side, what, wire, at, value, read);
    }
}

void marked_table() {
    writes("(a) varint 300", {0xAC, 0x02}, [](Writer &w) { return w.varint(300); });
    reads("(b) 80 00", {0x80, 0x00}, std::uint64_t{0}, [](Reader &r) { return r.varint(); });
    const auto varint = [](Reader &r) { return r.varint(); };
    reads("(c) nine FF then 01", nine(0xFF, 0x01), FAR, varint);
    reads("(d) nine 80 then 7F", nine(0x80, 0x7F), std::uint64_t{1} << 63, varint);
    const Wire endless = nine(0xFF, 0x81);
    expect(Reader(endless).varint().outcome() == OVERLONG, "(e) nine FF then 81");
    writes("(f) signed varint -1", {0x01}, [](Writer &w) { return w.signed_varint(-1); });
    const double infinity = std::numeric_limits<double>::infinity();
    expect(tikomuci::f8e4m3fn(0x3p-10) == 0x02, "(g) E4M3FN of 3 * 2^-10");
    expect(tikomuci::f8e4m3fn(0x1p-10) == 0x00, "(h) E4M3FN of 2^-10");
    expect(tikomuci::f8e4m3fn(1.1875) == 0x3A, "(i) E4M3FN of 1.1875");
    expect(tikomuci::f8e4m3fn(infinity) == 0x7E, "(j) E4M3FN of infinity");
    expect(tikomuci::f8e5m2(infinity) == 0x7C, "(j) E5M2 of infinity");
    expect(tikomuci::f8e5m2(57344) == 0x7B, "(k) E5M2 of 57344");
    expect(tikomuci::f8e5m2(61440) == 0x7C, "(k) E5M2 of 61440");
}

void fixed_widths() {
    writes("byte", {0xCB}, [](Writer &w) { return w.byte(0xCB); });
    writes("u8", {0xFE}, [](Writer &w) { return w.le_u8(0xFE); });
    writes("u16", {0x34, 0x12}, [](Writer &w) { return w.le_u16(0x1234); });
    writes("u32", {0x78, 0x56, 0x34, 0x12}, [](Writer &w) { return w.le_u32(0x12345678); });
    writes("u64", {8, 7, 6, 5, 4, 3, 2, 1}, [](Writer &w) { return w.le_u64(0x0102030405060708); });
    writes("i32", {0xFE, 0xFF, 0xFF, 0xFF}, [](Writer &w) { return w.le_i32(-2); });
    writes("i64", {0, 0, 0, 0, 0, 0, 0, 0x80},
           [](Writer &w) { return w.le_i64(std::numeric_limits<std::int64_t>::min()); });
    writes("f32", {0x00, 0x00, 0x80, 0xBF}, [](Writer &w) { return w.le_f32(-1.0F); });
    writes("f64", {0, 0, 0, 0, 0, 0, 0xF0, 0x3F}, [](Writer &w) { return w.le_f64(1.0); });
    reads("byte", {0xCB}, std::uint8_t{0xCB}, [](Reader &r) { return r.byte(); });
    reads("u8", {0xFE}, std::uint8_t{0xFE}, [](Reader &r) { return r.le_u8(); });
    reads("u16", {0x34, 0x12}, std::uint16_t{0x1234}, [](Reader &r) { return r.le_u16(); });
    reads("u32", {0x78, 0x56, 0x34, 0x12}, std::uint32_t{0x12345678}, [](Reader &r) { return r.le_u32(); });
    reads("u64", {8, 7, 6, 5, 4, 3, 2, 1}, std::uint64_t{0x0102030405060708}, [](Reader &r) { return r.le_u64(); });
    reads("i32", {0xFE, 0xFF, 0xFF, 0xFF}, std::int32_t{-2}, [](Reader &r) { return r.le_i32(); });
    reads("i64", {0, 0, 0, 0, 0, 0, 0, 0x80}, std::numeric_limits<std::int64_t>::min(),
          [](Reader &r) { return r.le_i64(); });
}

void varints() {
    writes("varint 0", {0x00}, [](Writer &w) { return w.varint(0); });
    writes("varint 127", {0x7F}, [](Writer &w) { return w.varint(127); });
    writes("varint 2^64 - 1", nine(0xFF, 0x01), [](Writer &w) { return w.varint(FAR); });
    writes("signed varint 1", {0x02}, [](Writer &w) { return w.signed_varint(1); });
    writes("signed varint -2^63", nine(0xFF, 0x01),
           [](Writer &w) { return w.signed_varint(std::numeric_limits<std::int64_t>::min()); });
    reads("signed varint -1", {0x01}, std::int64_t{-1}, [](Reader &r) { return r.signed_varint(); });
    reads("signed varint 64", {0x80, 0x01}, std::int64_t{64}, [](Reader &r) { return r.signed_varint(); });
    writes("F64 attribute 0", {0x00}, [](Writer &w) { return w.ap_float_f64(0.0); });
    writes("F64 attribute -0", nine(0xFF, 0x01), [](Writer &w) { return w.ap_float_f64(-0.0); });
    writes("E4M3FN attribute -0", {0x80}, [](Writer &w) { return w.ap_float_f8e4m3fn(-0.0); });
    writes("E5M2 attribute NaN", {0x7D}, [](Writer &w) { return w.ap_float_f8e5m2(std::nan("")); });
}

// Numbers as they stand in a writer's lent memory.
template <typename Int>
std::span<const Int> lent_numbers(const std::vector<Int> &numbers, Side side) {
    const auto *const bytes = reinterpret_cast<const std::uint8_t *>(numbers.data());
    const Bytes lent = memories().lent.lent(Wire(bytes, bytes + numbers.size() * sizeof(Int)), side);
    return {reinterpret_cast<const Int *>(lent.data()), numbers.size()};
}

void written_runs_and_arrays() {
    for (const Side side : SIDES) {
        const Bytes data = memories().lent.lent({1, 2, 3}, side);
        writes("three bytes", {1, 2, 3}, [&](Writer &w) { return w.bytes(data); });
        writes("no bytes", {}, [&](Writer &w) { return w.bytes(data.first(0)); });
        const auto narrow = lent_numbers<std::int32_t>({-1, 2}, side);
        writes("i32 array", {2, 0xFF, 0xFF, 0xFF, 0xFF, 2, 0, 0, 0}, [&](Writer &w) { return w.le_var_size(narrow); });
        writes("empty array", {0}, [&](Writer &w) { return w.le_var_size(narrow.first(0)); });
        const auto wide = lent_numbers<std::int64_t>({-2}, side);
        writes("i64 array", {1, 0xFE, 0xFF, 0xFF, 0xFF, 0xFF, 0xFF, 0xFF, 0xFF},
               [&](Writer &w) { return w.le_var_size(wide); });
    }
}

void read_runs_and_arrays() {
    const auto two = [](Reader &r) { return r.bytes(2); };
    reads("two bytes", {1, 2, 3}, Wire{2, 3}, two, 1);
    reads("i32 array", {2, 0xFF, 0xFF, 0xFF, 0xFF, 2, 0, 0, 0}, Wire{0xFF, 0xFF, 0xFF, 0xFF, 2, 0, 0, 0},
          [](Reader &r) { return r.le_var_size_i32(); });
    reads("i64 array", {1, 0xFE, 0xFF, 0xFF, 0xFF, 0xFF, 0xFF, 0xFF, 0xFF},
          Wire{0xFE, 0xFF, 0xFF, 0xFF, 0xFF, 0xFF, 0xFF, 0xFF}, [](Reader &r) { return r.le_var_size_i64(); });
    const Wire far = nine(0xFF, 0x01);
    expect(Reader(far).le_var_size_i64().outcome() == SHORT, "array whose size would wrap");
    const Wire endless = nine(0xFF, 0x81);
    expect(Reader(endless).le_var_size_i32().outcome() == OVERLONG, "array whose count is no varint");
    const Wire data = {1, 2, 3};
    const auto run = Reader(data, 1).bytes(2);
    expect(run && run->data() == data.data() + 1 && run->size() == 2, "a run is a part of the data");
    const auto numbers = Reader(data, 0).le_var_size_i32();
    expect(numbers.outcome() == SHORT, "an array cut short");
    expect(Reader(data, 1).bytes(FAR).outcome() == SHORT, "a run whose end would wrap");
    const auto none = Reader(data, 3).bytes(0);
    expect(none && none->empty(), "no bytes at the end");
}

// Bytes may be std::byte everywhere, and any container that has them side by side.
void other_bytes() {
    std::array<std::byte, 4> memory{};
    Writer writer(memory);
    const std::vector<std::byte> data = {std::byte{0xAC}, std::byte{0x02}};
    expect(writer.bytes(data) && memory[0] == std::byte{0xAC} && memory[1] == std::byte{0x02}, "std::byte written");
    const auto read = Reader(memory).varint();
    expect(read && *read == 300, "std::byte read");
    const std::span<const std::byte> span(memory);
    expect(tikomuci::patch_u32(memory, 0, 0x7F) && span[0] == std::byte{0x7F}, "std::byte patched");
    std::uint8_t raw[2] = {0x7F, 0};
    const auto first = Reader(raw).byte();
    expect(first && *first == 0x7F, "an array of C");
    const auto second = Reader({raw, 1}, 1).byte();
    expect(second.outcome() == SHORT, "a pointer and a size");
}

void padding() {
    writes("padding from 2 to 8", Wire(6, 0xCB), [](Writer &w) { return w.align_to(8); });
    writes("padding from 2 to 3", {0xCB}, [](Writer &w) { return w.align_to(3); });
    writes("padding to 1", {}, [](Writer &w) { return w.align_to(1); });
    writes("padding to 0", {}, [](Writer &w) { return w.align_to(0); });
    Wire out(8, 0);
    Writer writer(out);
    expect(writer.align_to(4) && writer.align_to(2) && writer.required_alignment() == 4, "the largest alignment asked");
    expect(writer.align_to(0) && writer.required_alignment() == 4, "an alignment below 2 is not asked");
    expect(writer.byte(0) && writer.align_to(64) == FULL && writer.required_alignment() == 4,
           "a refused alignment is not kept");

    const auto to_four = [](Reader &r) { return r.skip_padding(4); };
    reads("three padding bytes", {0, 0xCB, 0xCB, 0xCB}, std::uint64_t{3}, to_four, 1);
    const Wire wrong = {0, 0xCB, 0xCA, 0xCB, 9};
    expect(Reader(wrong, 1).skip_padding(4).outcome() == PADDING, "a wrong padding byte");
    expect(Reader(Bytes(wrong).first(3), 1).skip_padding(4).outcome() == PADDING, "a wrong byte before the end");
    expect(Reader(wrong, 5).skip_padding(1) && Reader(wrong, 6).skip_padding(1).outcome() == SHORT,
           "no padding at the end of the data, and past it");
}

void patches() {
    Guarded &memory = memories().out;
    for (const Side side : SIDES) {
        const Output buf = memory.store(9, side);
        expect(tikomuci::patch_u32(buf, 1, 0x04030201) && memory.holds(buf, {CANARY, 1, 2, 3, 4}), "u32 patched");
        const Wire patched = {CANARY, 1, 2, 3, 4, 5, 6, 7, 8};
        expect(tikomuci::patch_u64(buf, 1, 0x0807060504030201) && memory.holds(buf, patched), "u64 patched");
        for (std::uint64_t offset = 0; offset < 12; ++offset) {
            const bool narrow = tikomuci::patch_u32(buf, offset, 0) == ABSENT;
            const bool wide = tikomuci::patch_u64(buf, offset, 0) == ABSENT;
            expect(narrow == (offset > 5) && wide == (offset > 1), "patched at " + std::to_string(offset));
        }
        const Output kept = memory.store(9, side);
        expect(tikomuci::patch_u32(kept, 6, 0) == ABSENT && tikomuci::patch_u64(kept, 2, 0) == ABSENT &&
                   tikomuci::patch_u32(kept, FAR, 0) == ABSENT && memory.holds(kept, {}),
               "a refused patch changes nothing");
        const tikomuci_answer answer = tikomuci_patch_u32(kept.data(), kept.size(), 5, 0);
        expect(answer.first == 9 && answer.second == 0, "the place after a patch");
    }
}

// The refusal of the String section's view after the byte at `place` became `byte`.
Outcome damaged(std::size_t place, std::uint8_t byte) {
    Wire file = whole_case();
    file[place] = byte;
    return tikomuci::section(file, Section::String).outcome();
}

void section_views() {
    const Wire file = whole_case();
    const auto strings = tikomuci::section(file, Section::String);
    expect(strings && strings->data() == file.data() + 16 && strings->size() == 15, "the String section");
    for (const std::uint64_t id : std::initializer_list<std::uint64_t>{0, 2, 3, 4, 5, 6, 7, 8, 127}) {
        expect(tikomuci::section(file, id).outcome() == ABSENT, "section " + std::to_string(id) + " is not there");
    }
    expect(tikomuci::section(file, FAR).outcome() == ABSENT, "a far section id");
    for (std::size_t size = 0; size < file.size(); ++size) {
        const Stage stage = size < 12 ? Stage::Header : Stage::Sections;
        expect(tikomuci::section(Bytes(file).first(size), Section::String).outcome() == Outcome{Refusal::Short, stage},
               "a file cut to " + std::to_string(size) + " bytes");
    }
    expect(damaged(7, 1) == Outcome{Refusal::Magic, Stage::Header}, "a wrong magic");
    expect(damaged(13, 0x11) == Outcome{Refusal::Short, Stage::Sections}, "a length past the file");
    expect(damaged(15, 0xCA) == Outcome{Refusal::Padding, Stage::Sections}, "a wrong padding byte");
    expect(damaged(12, 0x88) == ABSENT, "an id of no table is passed over");
    expect(damaged(12, 0x80) == ABSENT, "the end marker's top bit does not matter");
}

// An empty span may come as a null pointer.
void null_pointers() {
    expect(outcome_of(tikomuci_write_varint(nullptr, 0, 0, 0)) == FULL, "writing to nothing");
    expect(outcome_of(tikomuci_read_varint(nullptr, 0, 0)) == SHORT, "reading from nothing");
    std::uint8_t out = CANARY;
    expect(tikomuci_write_bytes(&out, 1, 0, nullptr, 0).refusal == 0 && out == CANARY, "writing nothing");
}

void overlapping_spans() {
    Wire memory(16, 0);
    const Wire kept = memory;
    Writer writer(Output(memory).first(8));
    expect(writer.bytes(Bytes(memory).subspan(7, 2)) == tikomuci::OVERLAPPING, "spans that share a byte");
    expect(writer.tell() == 0 && memory == kept, "spans that share a byte stay");
    expect(static_cast<bool>(Writer(Output(memory).first(8)).bytes(Bytes(memory).subspan(8, 2))),
           "spans that touch and do not overlap");
}

}  // namespace

int main() {
    const char *const fault = header_fault();
    expect(fault == nullptr, "the header in C: " + std::string(fault == nullptr ? "all" : fault));
    marked_table();
    fixed_widths();
    varints();
    written_runs_and_arrays();
    read_runs_and_arrays();
    other_bytes();
    padding();
    patches();
    section_views();
    file_tests();
    table_tests();
    write_tests();
    builder_tests();
    type_text_tests();
    type_stack_tests();
    guard_tests();
    cache_tests();
    cache_guard_tests();
    profile_cache_tests();
    format_tests();
    memory_tests();
    cxx17_tests();
    cxx23_tests();
    released_tests();
    null_pointers();
    overlapping_spans();
    std::printf("C++ host: %d checks passed, %d failed\n", passed, failed);
    return failed == 0 ? EXIT_SUCCESS : EXIT_FAILURE;
}
