// Tests of the calls over whole files: measuring, reading into lent stores, and the views of rows.

#include <algorithm>
#include <array>
#include <stdexcept>
#include <string>
#include <vector>

#include "check.hpp"

namespace {

using tikomuci::Bytes;
using tikomuci::Outcome;
using tikomuci::outcome_of;
using tikomuci::Output;
using tikomuci::Refusal;
using tikomuci::Size;
using tikomuci::Stage;
using Sheet = std::vector<std::uint64_t>;

// A file, and what has to be read from it.
struct Case {
    std::string what;
    Wire file;
    Sheet sheet;
    Wire pool;
};

std::vector<Case> cases() {
    const Wire no_sections = {0x7F, 'T', 'i', 'l', 'e', 'I', 'R', 0x00, 12, 7, 0x34, 0x12, 0};
    const Sheet no_rows = {12, 7, 0x1234, 0, 0, 19, 0, 19, 0, 19, 0, 19, 0, 19, 0, 19, 0, 19, 0};
    return {{"the whole case", whole_case(), whole_case_sheet(), whole_case_pool()},
            {"every table", every_table(), every_table_sheet(), every_table_pool()},
            {"no section", no_sections, no_rows, {}}};
}

// Reads into a sheet store of `room` bytes at place `shift` of its memory and a pool store of `pool_room` bytes: the
// outcome, and that only the result's own words and bytes are changed.
void reads_into(const Case &c, std::size_t shift, std::size_t room, std::size_t pool_room) {
    const Wire words = little_endian(c.sheet);
    Wire sheet(shift + room + 9, CANARY);
    Wire pool(3 + pool_room + 4, CANARY);
    Wire wanted_sheet = sheet;
    Wire wanted_pool = pool;
    const bool fits = c.sheet.size() <= room / 8 && c.pool.size() <= pool_room;
    if (fits) {
        std::copy(words.begin(), words.end(), wanted_sheet.begin() + static_cast<std::ptrdiff_t>(shift));
        std::copy(c.pool.begin(), c.pool.end(), wanted_pool.begin() + 3);
    }
    const auto size = tikomuci::read(c.file, Output(sheet).subspan(shift, room), Output(pool).subspan(3, pool_room));
    const std::string where = c.what + ", read into " + std::to_string(room) + " and " + std::to_string(pool_room) +
                              " bytes at " + std::to_string(shift);
    expect(size.outcome() == (fits ? Outcome{} : FULL), where + ": the outcome");
    expect(size.value_or(Size{}) == (fits ? Size{c.sheet.size(), c.pool.size()} : Size{}), where + ": the sizes");
    expect(sheet == wanted_sheet, where + ": the sheet");
    expect(pool == wanted_pool, where + ": the pool");
}

// Rooms around `need`: nothing, one unit less, one byte less, just enough, and more.
std::vector<std::size_t> rooms_around(std::size_t need, std::size_t unit) {
    std::vector<std::size_t> rooms = {0, need, need + 1, need + unit + 1};
    if (need != 0) {
        rooms.push_back(need - unit);
        rooms.push_back(need - 1);
    }
    return rooms;
}

void stores() {
    for (const Case &c : cases()) {
        const auto size = tikomuci::measure(c.file);
        expect(size && *size == Size{c.sheet.size(), c.pool.size()}, c.what + ", measured");
        for (const std::size_t room : rooms_around(c.sheet.size() * 8, 8)) {
            for (const std::size_t pool_room : rooms_around(c.pool.size(), 1)) {
                reads_into(c, 0, room, pool_room);
            }
        }
        for (std::size_t shift = 1; shift < 8; ++shift) {
            reads_into(c, shift, c.sheet.size() * 8 + 7, c.pool.size());
            reads_into(c, shift, c.sheet.size() * 8 - 1, c.pool.size());
        }
    }
}

using View = tikomuci::Got<Bytes> (*)(tikomuci::Lent, std::uint64_t) noexcept;

// The rows of one table by their places in the file, and numbers that no row has.
void views(const std::string &what, View view, const Wire &file,
           const std::vector<std::array<std::size_t, 2>> &places) {
    for (std::size_t i = 0; i < places.size(); ++i) {
        const auto row = view(file, i);
        expect(row && row->data() == file.data() + places[i][0] && row->size() == places[i][1],
               what + " " + std::to_string(i));
    }
    for (const std::uint64_t index : {std::uint64_t{places.size()}, std::uint64_t{places.size()} + 1,
                                      std::uint64_t{1} << 32, std::uint64_t{1} << 61, FAR}) {
        expect(view(file, index).outcome() == ABSENT, what + " " + std::to_string(index) + " is not there");
    }
}

void row_views() {
    views("whole case, string", tikomuci::string, whole_case(), {{28, 1}, {29, 2}});
    views("whole case, constant", tikomuci::constant, whole_case(), {});
    views("whole case, body", tikomuci::body, whole_case(), {});
    views("every table, string", tikomuci::string, every_table(), {{28, 1}, {29, 4}});
    views("every table, constant", tikomuci::constant, every_table(), {{80, 3}});
    views("every table, body", tikomuci::body, every_table(), {{100, 4}});
}

// The one outcome that all five calls have for a file, into stores that would hold more than its result. A refusal has
// no other data, and changes nothing.
Outcome judged(const std::string &what, const Wire &file) {
    Wire sheet(1024, CANARY);
    Wire pool(1024, CANARY);
    const Outcome outcome = tikomuci::measure(file).outcome();
    const tikomuci_answer answers[] = {
        tikomuci_measure(file.data(), file.size()),
        tikomuci_read(file.data(), file.size(), sheet.data(), sheet.size(), pool.data(), pool.size()),
        tikomuci_read(file.data(), file.size(), nullptr, 0, nullptr, 0),
        tikomuci_string(file.data(), file.size(), 0),
        tikomuci_string(file.data(), file.size(), FAR),
        tikomuci_constant(file.data(), file.size(), 0),
        tikomuci_body(file.data(), file.size(), 0),
    };
    const bool alike = std::all_of(std::begin(answers), std::end(answers), [&](const tikomuci_answer &answer) {
        return outcome_of(answer) == outcome && answer.first == 0 && answer.second == 0;
    });
    expect(alike, what + ": one refusal, and no other data");
    expect(sheet == Wire(sheet.size(), CANARY) && pool == Wire(pool.size(), CANARY), what + ": the stores stay");
    return outcome;
}

// A file with a row in every table, after the byte at `place` became `byte`.
void damaged(const std::string &what, std::size_t place, std::uint8_t byte, Outcome wanted) {
    Wire file = every_table();
    expect(file[place] != byte, what + ": the byte is another");
    file[place] = byte;
    expect(judged(what, file) == wanted, what + ": the refusal");
}

void refusals() {
    damaged("a wrong magic", 0, 0x7E, {Refusal::Magic, Stage::Header});
    damaged("wrong padding before a section", 15, 0, {Refusal::Padding, Stage::Sections});
    damaged("a section past the file", 105, 36, {Refusal::Short, Stage::Sections});
    damaged("a string that starts after its end", 20, 2, {Refusal::Bounds, Stage::String});
    damaged("a string that ends outside", 24, 6, {Refusal::Bounds, Stage::String});
    damaged("a producer that is no string", 35, 2, {Refusal::Producer, Stage::Producer});
    damaged("a type tag that is not known", 50, 23, {Refusal::TypeTag, Stage::Type});
    damaged("a type that ends inside a field", 52, 3, {Refusal::Short, Stage::Type});
    damaged("wrong padding among constants", 65, 0xCA, {Refusal::Padding, Stage::Constant});
    damaged("a constant far outside", 79, 0x80, {Refusal::Bounds, Stage::Constant});
    damaged("a global too many", 85, 2, {Refusal::Short, Stage::Global});
    damaged("a function with hints", 97, 4, {Refusal::Hints, Stage::Func});
    damaged("a body past its section", 99, 5, {Refusal::Short, Stage::Func});
    damaged("a debug tag that is not known", 138, 7, {Refusal::DebugTag, Stage::Debug});
    damaged("an empty debug attribute", 134, 3, {Refusal::Bounds, Stage::Debug});
    damaged("a list that starts behind the ids", 110, 2, {Refusal::Bounds, Stage::Debug});

    Wire overlong = {0x7F, 'T', 'i', 'l', 'e', 'I', 'R', 0x00, 13, 4, 0, 0, 7, 10};
    const Wire number = nine(0xFF, 0x81);
    overlong.insert(overlong.end(), number.begin(), number.end());
    overlong.push_back(0);
    expect(judged("a producer past ten bytes", overlong) == Outcome{Refusal::Overlong, Stage::Producer},
           "a producer past ten bytes");

    Wire first = every_table();
    first[20] = 2;
    first[138] = 7;
    expect(judged("two faults", first) == Outcome{Refusal::Bounds, Stage::String},
           "the first fault in reading order counts");

    // Globals stand before constants in this file and are read after them.
    const Wire order = {0x7F, 'T', 'i', 'l', 'e', 'I', 'R', 0x00, 13, 4, 0, 0, 6, 1, 1, 4, 0, 0};
    expect(judged("no global and no constant", order) == Outcome{Refusal::Short, Stage::Constant},
           "the reading order is not that of the file");
}

void cut_files() {
    const Wire file = every_table();
    for (std::size_t size = 0; size < file.size(); ++size) {
        const Wire cut(file.begin(), file.begin() + static_cast<std::ptrdiff_t>(size));
        const Stage stage = size < 12 ? Stage::Header : Stage::Sections;
        const std::string what = "every table, cut to " + std::to_string(size) + " bytes";
        expect(judged(what, cut) == Outcome{Refusal::Short, stage}, what);
    }
    Wire longer = file;
    longer.insert(longer.end(), {0xFF, 0xFF, 0xFF});
    const auto size = tikomuci::measure(longer);
    expect(size && *size == Size{49, 12}, "bytes behind the end marker are not read");
}

// An empty span may come as a null pointer.
void null_spans() {
    const Outcome no_header{Refusal::Short, Stage::Header};
    expect(outcome_of(tikomuci_measure(nullptr, 0)) == no_header, "no file measured");
    expect(outcome_of(tikomuci_read(nullptr, 0, nullptr, 0, nullptr, 0)) == no_header, "no file read");
    expect(outcome_of(tikomuci_string(nullptr, 0, 0)) == no_header, "a string of no file");
    expect(outcome_of(tikomuci_constant(nullptr, 0, 0)) == no_header, "a constant of no file");
    expect(outcome_of(tikomuci_body(nullptr, 0, 0)) == no_header, "a body of no file");

    const Wire file = whole_case();
    Wire sheet(21 * 8, CANARY);
    Wire pool(3, CANARY);
    expect(outcome_of(tikomuci_read(file.data(), file.size(), nullptr, 0, pool.data(), 3)) == FULL &&
               pool == Wire(3, CANARY),
           "no sheet store");
    expect(outcome_of(tikomuci_read(file.data(), file.size(), sheet.data(), sheet.size(), nullptr, 0)) == FULL &&
               sheet == Wire(21 * 8, CANARY),
           "no pool store");
    const Case none = cases()[2];
    Wire contents(19 * 8, CANARY);
    const tikomuci_answer answer =
        tikomuci_read(none.file.data(), none.file.size(), contents.data(), contents.size(), nullptr, 0);
    expect(answer.refusal == 0 && answer.first == 19 && answer.second == 0 && contents == little_endian(none.sheet),
           "no pool store where the pool is empty");
}

bool overlapping(Bytes file, Output sheet, Output pool) {
    return tikomuci::read(file, sheet, pool).outcome() == tikomuci::OVERLAPPING;
}

void overlapping_stores() {
    Wire memory = whole_case();
    memory.resize(32 + 168 + 3, CANARY);
    const Wire kept = memory;
    const Output all(memory);
    expect(overlapping(all.first(32), all.subspan(31, 168), all.subspan(200, 3)), "a sheet store over the file");
    expect(overlapping(all.first(32), all.subspan(32, 168), all.subspan(29, 3)), "a pool store over the file");
    expect(overlapping(all.first(32), all.subspan(32, 168), all.subspan(199, 3)), "a pool store over the sheet's");
    expect(memory == kept, "stores that overlap stay");
    expect(!overlapping(all.first(32), all.subspan(32, 168), all.subspan(200, 3)), "stores that touch");
    expect(Wire(memory.begin() + 200, memory.end()) == whole_case_pool(), "stores that touch are filled");
}

}  // namespace

void file_tests() {
    stores();
    row_views();
    refusals();
    cut_files();
    null_spans();
    overlapping_stores();
}
