// Tests of writing: the image of a sheet and a pool, what is refused, and reading back what was written.

#include <algorithm>
#include <stdexcept>
#include <string>
#include <vector>

#include "check.hpp"

namespace {

using tikomuci::Bytes;
using tikomuci::Outcome;
using tikomuci::outcome_of;
using tikomuci::Output;
using tikomuci::Size;
using Sheet = std::vector<std::uint64_t>;

constexpr Outcome LIMIT{tikomuci::Refusal::Limit, tikomuci::Stage::Call};
constexpr Outcome START{tikomuci::Refusal::Start, tikomuci::Stage::Call};

// A sheet and a pool, and the bytes that they have to give.
struct Case {
    std::string what;
    Sheet sheet;
    Wire pool;
    Wire image;
};

// The image of every table: its payloads are those of that file, at the places that the alignments of the sections give
// them, and the constant flag 5 has become 1.
Wire every_table_image() {
    const Wire file = every_table();
    Wire image;
    const auto take = [&](std::size_t from, std::size_t to) {
        const Bytes part = Bytes(file).subspan(from, to - from);
        image.insert(image.end(), part.begin(), part.end());
    };
    const auto put = [&](const Wire &bytes) { image.insert(image.end(), bytes.begin(), bytes.end()); };
    take(0, 36);                                       // 0: the header, String and Producer
    put({0x85, 17, 4, 0xCB});                          // 36: Type, 17 bytes, aligned to 4
    take(38, 55);                                      // 40: its payload
    put({0x84, 19, 8, 0xCB, 0xCB, 0xCB, 0xCB});        // 57: Constant, 19 bytes, aligned to 8
    take(64, 91);                                      // 64: its payload, and Global up to the flag
    put({1});                                          // 91: the flag
    take(92, 104);                                     // 92: Func
    put({0x83, 35, 8, 0xCB, 0xCB, 0xCB, 0xCB, 0xCB});  // 104: Debug, 35 bytes, aligned to 8
    take(106, 142);                                    // 112: its payload, and the end
    return image;
}

std::vector<Case> cases() {
    const Sheet no_rows = {12, 7, 0x1234, 0, 0, 19, 0, 19, 0, 19, 0, 19, 0, 19, 0, 19, 0, 19, 0};
    const Wire no_sections = {0x7F, 'T', 'i', 'l', 'e', 'I', 'R', 0x00, 12, 7, 0x34, 0x12, 0};
    return {{"the whole case", whole_case_sheet(), whole_case_pool(), whole_case()},
            {"every table", every_table_sheet(), every_table_pool(), every_table_image()},
            {"no row", no_rows, {}, no_sections}};
}

// Writes from a sheet at place `shift` of its memory into an output of `room` bytes: the outcome, and that only the
// image's own bytes are changed.
void writes_into(const Case &c, std::size_t shift, std::size_t room) {
    Wire sheet(shift, CANARY);
    const Wire words = little_endian(c.sheet);
    sheet.insert(sheet.end(), words.begin(), words.end());
    Wire out(3 + room + 4, CANARY);
    Wire wanted = out;
    const bool fits = c.image.size() <= room;
    if (fits) {
        std::copy(c.image.begin(), c.image.end(), wanted.begin() + 3);
    }
    const Bytes lent = Bytes(sheet).subspan(shift);
    const auto written = tikomuci::write(lent, c.pool, Output(out).subspan(3, room));
    const std::string where = c.what + " from " + std::to_string(shift) + ", into " + std::to_string(room) + " bytes";
    expect(written.outcome() == (fits ? Outcome{} : FULL), where + ": the outcome");
    expect(written.value_or(0) == (fits ? c.image.size() : 0), where + ": the image's size");
    expect(out == wanted, where + ": the output");
    const auto measured = tikomuci::image(lent);
    expect(measured && *measured == c.image.size(), where + ": measured");
}

void outputs() {
    for (const Case &c : cases()) {
        for (std::size_t room = 0; room <= c.image.size() + 9; ++room) {
            writes_into(c, 0, room);
        }
        for (std::size_t shift = 1; shift < 8; ++shift) {
            writes_into(c, shift, c.image.size());
        }
        const Wire sheet = little_endian(c.sheet);
        Wire out(c.image.size(), CANARY);
        const tikomuci_answer answers[] = {
            tikomuci_image(sheet.data(), sheet.size()),
            tikomuci_write(sheet.data(), sheet.size(), c.pool.data(), c.pool.size(), out.data(), out.size())};
        for (const tikomuci_answer &answer : answers) {
            expect(answer.refusal == 0 && answer.stage == 0 && answer.first == out.size() && answer.second == 0,
                   c.what + ": the answer");
        }
    }
}

struct Stores {
    Wire sheet;
    Wire pool;

    friend bool operator==(const Stores &, const Stores &) = default;
};

Stores stores_of(const std::string &what, const Wire &file) {
    const Size size = tikomuci::measure(file).value_or(Size{});
    Stores stores{Wire(size.words * 8), Wire(size.bytes)};
    expect(tikomuci::read(file, stores.sheet, stores.pool).outcome() == Outcome{}, what + ": read");
    return stores;
}

Wire image_of(const std::string &what, const Stores &stores) {
    Wire image(tikomuci::image(stores.sheet).value_or(0), CANARY);
    expect(tikomuci::write(stores.sheet, stores.pool, image).outcome() == Outcome{}, what + ": written");
    return image;
}

// A file that is read, written and read again has the same tables, and these give the same bytes again.
void back_and_forth() {
    for (const Wire &file : {whole_case(), every_table()}) {
        const std::string what = std::to_string(file.size()) + " bytes, back and forth";
        const Stores stores = stores_of(what, file);
        const Wire image = image_of(what, stores);
        const Stores again = stores_of(what, image);
        expect(again == stores, what + ": the tables");
        expect(image_of(what, again) == image, what + ": the bytes");
    }
    for (const Case &c : cases()) {
        expect(stores_of(c.what, c.image) == Stores{little_endian(c.sheet), c.pool}, c.what + ": read back");
    }
}

// The outcome of writing into outputs that have room and that have none: no other data, and nothing is changed.
Outcome judged(const std::string &what, Bytes sheet, Bytes pool) {
    Wire out(1024, CANARY);
    const auto written = tikomuci::write(sheet, pool, out);
    expect(!written && out == Wire(out.size(), CANARY), what + ": the output stays");
    expect(tikomuci::write(sheet, pool, {}).outcome() == written.outcome(), what + ": the output is judged last");
    return written.outcome();
}

// A sheet that is refused whether its pool is lent or not.
void ill_formed(const std::string &what, const Sheet &words, const Wire &pool) {
    const Wire sheet = little_endian(words);
    expect(judged(what, sheet, pool) == SHEET, what + " is not written");
    const auto measured = tikomuci::image(sheet);
    expect(measured.outcome() == SHEET, what + " is not measured");
}

// A sheet with a row in every table, after the word at `place` became `word`.
void changed(const std::string &what, std::size_t place, std::uint64_t word) {
    Sheet sheet = every_table_sheet();
    expect(sheet[place] != word, what + ": the word is another");
    sheet[place] = word;
    ill_formed(what, sheet, every_table_pool());
}

void changed_words() {
    changed("a major version over 255", 0, 256);
    changed("a minor version over 255", 1, 256);
    changed("a version tag over 65535", 2, 65536);
    changed("a producer that is no string", 3, 3);
    changed("a pool's length that is no sum", 4, 11);
    changed("strings that start behind word 19", 5, 20);
    changed("a string too many", 6, 3);
    changed("a string too few", 6, 1);
    changed("types that start inside the strings", 7, 20);
    changed("a list too many", 18, 2);
    changed("a list too few", 18, 0);
    changed("lists without end", 18, FAR);
    changed("a string that is too long", 20, 5);
    changed("a type's count that is off by one", 21, 2);
    changed("a type tag that is not known", 22, 23);
    changed("a list of inputs that is off by one", 25, 2);
    changed("a visibility over 255", 33, 256);
    changed("a constant flag that is neither 0 nor 1", 34, 2);
    changed("flags with hints", 37, 4);
    changed("flags over 255", 37, 258);
    changed("a debug tag that is not known", 40, 7);
    changed("a field that its tag does not have", 43, 1);
    changed("a list of ids that is off by one", 47, 2);

    Sheet longer = every_table_sheet();
    longer.push_back(0);
    ill_formed("a word behind the last row", longer, every_table_pool());
    for (std::size_t count = 0; count < every_table_sheet().size(); ++count) {
        Sheet cut = every_table_sheet();
        cut.resize(count);
        ill_formed("a sheet cut to " + std::to_string(count) + " words", cut, every_table_pool());
    }
}

// A sheet that is no whole words, and pools that are not the sheet's.
void lengths() {
    Wire sheet = little_endian(whole_case_sheet());
    for (std::size_t more = 1; more < 8; ++more) {
        sheet.push_back(0);
        const std::string what = std::to_string(more) + " bytes behind the last word";
        expect(judged(what, sheet, whole_case_pool()) == SHEET, what + " are not written");
        expect(tikomuci::image(sheet).outcome() == SHEET, what + " are not measured");
    }
    sheet.resize(21 * 8);
    for (const Wire &pool : {Wire{}, Wire{'a', 'b'}, Wire{'a', 'b', 'c', 'd'}}) {
        const std::string what = "a pool of " + std::to_string(pool.size()) + " bytes";
        expect(judged(what, sheet, pool) == SHEET, what + " is not the sheet's");
    }
}

// A sheet of strings that have these lengths, beside a pool of `total` bytes.
Sheet strings(const Sheet &rows, std::uint64_t total) {
    const std::uint64_t end = 19 + rows.size();
    Sheet sheet = {13, 1, 0, 0, total, 19, rows.size()};
    for (int table = 1; table < 7; ++table) {
        sheet.insert(sheet.end(), {end, 0});
    }
    sheet.insert(sheet.end(), rows.begin(), rows.end());
    return sheet;
}

void large_rows() {
    const std::uint64_t far_start = std::uint64_t{1} << 32;
    const auto measured = [](const Sheet &rows, std::uint64_t total) {
        return tikomuci::image(little_endian(strings(rows, total)));
    };
    expect(measured({far_start + 1}, far_start + 1).outcome() == LIMIT, "one string over 2^32 bytes");
    expect(measured({FAR}, FAR).outcome() == LIMIT, "one string of 2^64 - 1 bytes");
    expect(measured({far_start, 0}, far_start).outcome() == START, "a string that starts at 2^32");
    expect(measured({far_start - 1, 1}, far_start).outcome() == LIMIT, "a string that starts before 2^32");
    expect(measured({far_start + 1, 1}, far_start + 1).outcome() == SHEET, "a large string and a pool that is no sum");
    expect(measured({FAR, 1}, 0).outcome() == SHEET, "row lengths whose sum would wrap");
    // The image has 12 bytes of header, 8 of the section's, 8 of its count and start, and the end.
    const std::uint64_t most = (std::uint64_t{1} << 30) - 29;
    const auto at_limit = measured({most}, most);
    expect(at_limit && *at_limit == most + 29, "an image at the limit");
    expect(measured({most + 1}, most + 1).outcome() == LIMIT, "an image over the limit");
    const Wire sheet = little_endian(strings({far_start, 0}, far_start));
    expect(judged("a large string without its pool", sheet, whole_case_pool()) == SHEET,
           "the pool is judged before the starts");
}

// An empty span may come as a null pointer.
void null_spans() {
    expect(outcome_of(tikomuci_image(nullptr, 0)) == SHEET, "no sheet measured");
    expect(outcome_of(tikomuci_write(nullptr, 0, nullptr, 0, nullptr, 0)) == SHEET, "no sheet written");
    const Wire sheet = little_endian(whole_case_sheet());
    const Wire pool = whole_case_pool();
    Wire out(32, CANARY);
    expect(outcome_of(tikomuci_write(sheet.data(), sheet.size(), nullptr, 0, out.data(), out.size())) == SHEET &&
               out == Wire(32, CANARY),
           "no pool");
    expect(outcome_of(tikomuci_write(sheet.data(), sheet.size(), pool.data(), pool.size(), nullptr, 0)) == FULL,
           "no output");
    const Case none = cases()[2];
    const Wire contents = little_endian(none.sheet);
    const tikomuci_answer answer =
        tikomuci_write(contents.data(), contents.size(), nullptr, 0, out.data(), none.image.size());
    expect(answer.refusal == 0 && std::equal(none.image.begin(), none.image.end(), out.begin()),
           "no pool where it is empty");
}

bool overlapping(Bytes sheet, Bytes pool, Output out) {
    return tikomuci::write(sheet, pool, out).outcome() == tikomuci::OVERLAPPING;
}

void overlapping_spans() {
    Wire memory = little_endian(whole_case_sheet());
    memory.insert(memory.end(), {'a', 'b', 'c'});
    memory.resize(168 + 3 + 32, CANARY);
    const Wire kept = memory;
    const Output all(memory);
    expect(overlapping(all.first(168), all.subspan(167, 3), all.subspan(171, 32)), "a pool over the sheet");
    expect(overlapping(all.first(168), all.subspan(168, 3), all.subspan(136, 33)),
           "an output over the sheet and the pool");
    expect(overlapping(all.first(168), {}, all.subspan(167, 32)), "an output over the sheet");
    expect(overlapping(all.first(168), all.subspan(168, 3), all.subspan(170, 32)), "an output over the pool");
    expect(memory == kept, "spans that overlap stay");
    expect(!overlapping(all.first(168), all.subspan(168, 3), all.subspan(171, 32)), "spans that touch");
    expect(Wire(memory.begin() + 171, memory.end()) == whole_case(), "spans that touch are written");
}

}  // namespace

void write_tests() {
    outputs();
    back_and_forth();
    changed_words();
    lengths();
    large_rows();
    null_spans();
    overlapping_spans();
}
