// A tour of the library from C++: numbers spelled and read back, padding, 8-bit floats, what a refusal leaves alone,
// and the tables of a file.

#include <array>
#include <cstdio>
#include <cstdlib>
#include <limits>
#include <string>
#include <vector>

#include "tikomuci_tables.hpp"

namespace {

using tikomuci::Bytes;
using tikomuci::Outcome;
using tikomuci::Reader;
using tikomuci::Section;
using tikomuci::Writer;

std::string hex(Bytes bytes) {
    std::string text;
    for (const std::uint8_t byte : bytes) {
        char two[4];
        std::snprintf(two, sizeof two, "%02X ", byte);
        text += two;
    }
    if (!text.empty()) {
        text.pop_back();
    }
    return text;
}

std::string said(Outcome outcome) {
    if (outcome) {
        return "accepted";
    }
    return "refusal " + std::to_string(number_of(outcome.refusal)) + ", stage " +
           std::to_string(number_of(outcome.stage));
}

void heading(const char *text) { std::printf("\n%s\n", text); }

// The tour stops at a refusal that it did not set out to show.
void must(Outcome outcome) {
    if (!outcome) {
        std::printf("unexpected %s\n", said(outcome).c_str());
        std::exit(EXIT_FAILURE);
    }
}

void spell_numbers() {
    heading("Numbers on the wire");
    std::array<std::uint8_t, 16> out{};
    for (const std::uint64_t value :
         {std::uint64_t{0}, std::uint64_t{127}, std::uint64_t{300}, std::numeric_limits<std::uint64_t>::max()}) {
        Writer writer(out);
        must(writer.varint(value));
        std::printf("  varint %-28llu %s\n", static_cast<unsigned long long>(value),
                    hex(Bytes(out).first(writer.tell())).c_str());
    }
    for (const std::int64_t value : {std::int64_t{-1}, std::int64_t{64}, std::numeric_limits<std::int64_t>::min()}) {
        Writer writer(out);
        must(writer.signed_varint(value));
        std::printf("  signed varint %-21lld %s\n", static_cast<long long>(value),
                    hex(Bytes(out).first(writer.tell())).c_str());
    }
    Writer writer(out);
    must(writer.le_u32(0x54696C65));
    std::printf("  u32 %-31s %s\n", "0x54696C65", hex(Bytes(out).first(writer.tell())).c_str());
}

void read_spellings() {
    heading("Spellings of a varint: three that are read, two that are refused");
    const std::vector<std::vector<std::uint8_t>> spellings = {
        {0x80, 0x00},
        {0xFF, 0xFF, 0xFF, 0xFF, 0xFF, 0xFF, 0xFF, 0xFF, 0xFF, 0x01},
        {0x80, 0x80, 0x80, 0x80, 0x80, 0x80, 0x80, 0x80, 0x80, 0x7F},
        {0xFF, 0xFF, 0xFF, 0xFF, 0xFF, 0xFF, 0xFF, 0xFF, 0xFF, 0x81},
        {0xAC}};
    for (const auto &spelling : spellings) {
        const auto got = Reader(spelling).varint();
        const std::string answer = got ? std::to_string(*got) : said(got.outcome());
        std::printf("  %-34s %s\n", hex(spelling).c_str(), answer.c_str());
    }
}

void read_counted_array() {
    heading("A counted array, written by hand: 3 and then 1, -2, 300 as i32");
    const std::vector<std::uint8_t> wire = {0x03, 0x01, 0x00, 0x00, 0x00, 0xFE, 0xFF,
                                            0xFF, 0xFF, 0x2C, 0x01, 0x00, 0x00};
    const auto whole = Reader(wire).le_var_size_i32();
    must(whole.outcome());
    Reader numbers(*whole);
    while (numbers.remaining() != 0) {
        const auto number = numbers.le_i32();
        must(number.outcome());
        std::printf("  %d\n", *number);
    }
    const auto cut = Reader(Bytes(wire).first(wire.size() - 1)).le_var_size_i32();
    std::printf("  one byte shorter: %s\n", said(cut.outcome()).c_str());
}

// Document 01's whole case: a file with one String section, which holds "a" and "bc".
std::vector<std::uint8_t> whole_case() {
    return {0x7F, 'T',  'i',  'l',  'e', 'I', 'R', 0x00, 13, 1, 0, 0, 0x81, 0x0F, 4,   0xCB,
            2,    0xCB, 0xCB, 0xCB, 0,   0,   0,   0,    1,  0, 0, 0, 'a',  'b',  'c', 0};
}

void view_a_section() {
    heading("A section of a file, and the same file with a length that reaches too far");
    std::vector<std::uint8_t> file = whole_case();
    const auto strings = tikomuci::section(file, Section::String);
    must(strings.outcome());
    std::printf("  String   %s\n", hex(*strings).c_str());
    const auto constants = tikomuci::section(file, Section::Constant);
    std::printf("  Constant %s\n", said(constants.outcome()).c_str());
    file[13] = 0x7F;
    std::printf("  damaged  %s\n", said(tikomuci::section(file, Section::String).outcome()).c_str());
}

void read_tables() {
    heading("The tables of the file, and what is said of it when a string starts after its end");
    std::vector<std::uint8_t> file = whole_case();
    const auto tables = tikomuci::read(file);
    must(tables.outcome());
    const tikomuci::Sheet &sheet = tables->sheet();
    std::printf("  %zu words, %zu bytes of pool, %zu strings\n", sheet.bytes().size() / 8, sheet.pool().size(),
                sheet.strings().size());
    for (const Bytes row : sheet.strings()) {
        std::printf("  string    %s\n", hex(row).c_str());
    }
    std::printf("  string 2  %s\n", sheet.string(2) ? "there" : "not there");
    file[20] = 2;
    const Outcome refused = tikomuci::read(file).outcome();
    std::printf("  %s: %s, %s\n", said(refused).c_str(), tikomuci::refusal_text(refused.refusal).data(),
                tikomuci::stage_text(refused.stage).data());
}

// Two instances' profiles lie side by side in one cache. The first one's count is damaged and claims a number too many.
void keep_to_the_lent_bytes() {
    heading("A damaged count does not reach the neighbour's bytes");
    std::vector<std::uint8_t> cache(32, 0xEE);
    Writer first(tikomuci::Output(cache).first(9));
    must(first.le_var_size(std::array<std::int32_t, 2>{7, 8}));
    Writer second(tikomuci::Output(cache).subspan(9));
    must(second.le_var_size(std::array<std::int32_t, 3>{70, 80, 90}));
    cache[0] = 3;
    const Bytes lent = Bytes(cache).first(9);
    std::printf("  lent      %s\n", hex(lent).c_str());
    std::printf("  beside it %s\n", hex(Bytes(cache).subspan(9, 13)).c_str());
    std::printf("  read      %s\n", said(Reader(lent).le_var_size_i32().outcome()).c_str());
}

void refuse_and_leave_alone() {
    heading("300 takes two bytes: what outputs of 0 to 3 bytes get (canary AA on both sides)");
    for (std::size_t room = 0; room <= 3; ++room) {
        std::array<std::uint8_t, 7> memory;
        memory.fill(0xAA);
        const Outcome outcome = Writer(tikomuci::Output(memory).subspan(2, room)).varint(300);
        std::printf("  room %zu  %-22s %s\n", room, said(outcome).c_str(), hex(memory).c_str());
    }
}

void pad() {
    heading("Padding from place 5 to a multiple of 8, then to one of 6");
    std::array<std::uint8_t, 12> out{};
    Writer writer(out, 5);
    must(writer.align_to(8));
    std::printf("  to 8: next place %llu, required alignment %llu\n", static_cast<unsigned long long>(writer.tell()),
                static_cast<unsigned long long>(writer.required_alignment()));
    must(writer.align_to(6));
    std::printf("  to 6: next place %llu, required alignment %llu\n", static_cast<unsigned long long>(writer.tell()),
                static_cast<unsigned long long>(writer.required_alignment()));
    std::printf("  %s\n", hex(out).c_str());
    const auto passed = Reader(out, 5).skip_padding(8);
    must(passed.outcome());
    std::printf("  read back: %llu padding bytes\n", static_cast<unsigned long long>(*passed));
    out[6] = 0;
    std::printf("  with one of them cleared: %s\n", said(Reader(out, 5).skip_padding(8).outcome()).c_str());
}

void convert_floats() {
    heading("Eight-bit floats: the nearest code, ties to the even one");
    std::printf("  %-14s %-8s %s\n", "value", "E4M3FN", "E5M2");
    const double infinity = std::numeric_limits<double>::infinity();
    for (const double value : {0.0, -0.0, 0x3p-10, 0x1p-10, 1.1875, 0.1, 448.0, 464.0, 57344.0, 61440.0, infinity,
                               -infinity, std::numeric_limits<double>::quiet_NaN()}) {
        std::printf("  %-14.9g %02X       %02X\n", value, tikomuci::f8e4m3fn(value), tikomuci::f8e5m2(value));
    }
}

void patch() {
    heading("A number patched in place, and one that would stick out");
    std::array<std::uint8_t, 6> out{};
    must(tikomuci::patch_u32(out, 2, 0x01020304));
    std::printf("  at 2: %s\n", hex(out).c_str());
    const Outcome outside = tikomuci::patch_u32(out, 3, 0xFFFFFFFF);
    std::printf("  at 3: %s, and the bytes are still %s\n", said(outside).c_str(), hex(out).c_str());
}

}  // namespace

int main() {
    std::printf("Tikomuci from C++\n");
    spell_numbers();
    read_spellings();
    read_counted_array();
    keep_to_the_lent_bytes();
    refuse_and_leave_alone();
    pad();
    patch();
    convert_floats();
    view_a_section();
    read_tables();
    return EXIT_SUCCESS;
}
