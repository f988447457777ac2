// Tests of the calls over whole files where each lent span ends at a page that cannot be read or written, or begins
// behind one: a call that reaches outside by one byte ends the program.

#include <sys/mman.h>
#include <sys/wait.h>
#include <unistd.h>

#include <algorithm>
#include <array>
#include <csignal>
#include <cstdlib>
#include <initializer_list>
#include <optional>
#include <string>
#include <vector>

#include "guarded.hpp"
#include "tikomuci_tables.hpp"
#include "walk.hpp"

namespace {

using tikomuci::Bytes;
using tikomuci::Outcome;
using tikomuci::outcome_of;
using tikomuci::Output;
using tikomuci::Refusal;
using tikomuci::Sheet;
using tikomuci::Size;
using tikomuci::Stage;

constexpr int CAUGHT = 42;

// Whether a child that does this is stopped by a signal.
template <typename Touch>
bool ends(Touch touch, int by = SIGSEGV) {
    const pid_t child = fork();
    if (child == 0) {
        std::signal(by, [](int) { _exit(CAUGHT); });
        touch();
        _exit(EXIT_SUCCESS);
    }
    int status = 0;
    return child > 0 && waitpid(child, &status, 0) == child && WIFEXITED(status) && WEXITSTATUS(status) == CAUGHT;
}

// The guards catch what they are there for: a byte outside a span, and a call that is told of one byte too many.
void guards_hold() {
    Guarded memory(1);
    Guarded stores(1);
    const Wire file = whole_case();
    const auto at = [](const std::uint8_t *place) { return *static_cast<const volatile std::uint8_t *>(place); };
    const Bytes front = memory.lent(file, Side::Begin);
    expect(ends([&] { static_cast<void>(at(front.data() - 1)); }), "the byte before a span cannot be read");
    expect(!ends([&] { static_cast<void>(at(front.data())); }), "the first byte of a span can be read");
    const Bytes back = memory.lent(file, Side::End);
    expect(ends([&] { static_cast<void>(at(back.data() + back.size())); }), "the byte behind a span cannot be read");
    expect(ends([&] { *const_cast<volatile std::uint8_t *>(back.data()) = 0; }), "a lent file cannot be written");
    const Output pool = stores.store(2, Side::End);
    Wire sheet(21 * 8);
    expect(ends([&] { static_cast<void>(tikomuci_read(back.data(), 32, sheet.data(), sheet.size(), pool.data(), 3)); }),
           "a pool store that is smaller than was said");
    const Bytes endless = memory.lent(Wire(file.begin(), file.end() - 1), Side::End);
    expect(ends([&] { static_cast<void>(tikomuci_measure(endless.data(), 32)); }), "a file shorter than was said");
}

// A refusal that is walked past is an assertion that fails. What it says is not for these tests.
void refusals_assert() {
    const Wire file = whole_case();
    const auto size = tikomuci::measure(file);
    const auto view = tikomuci::constant(file, 0);
    const auto quietly = [](auto look) {
        return [look] {
            std::freopen("/dev/null", "w", stderr);
            look();
        };
    };
    expect(!ends(quietly([&] { static_cast<void>(size->words); }), SIGABRT), "the value of an acceptance");
    expect(ends(quietly([&] { static_cast<void>(view->size()); }), SIGABRT), "a refusal by ->");
    expect(ends(quietly([&] { static_cast<void>(*view); }), SIGABRT), "a refusal by *");
    expect(ends(quietly([] { static_cast<void>(tikomuci::Got<Bytes>(Outcome{})); }), SIGABRT),
           "no refusal and no value");
    expect(view.value_or(Bytes(file)).size() == file.size(), "another value in the place of a refusal");
}

struct Memories {
    Guarded file{1};
    Guarded sheet{1};
    Guarded pool{1};
};

constexpr std::array<std::uint8_t, 6> BYTES = {0x00, 0x01, 0x02, 0x7F, 0x80, 0xFF};
constexpr std::array<std::uint64_t, 6> WORDS = {0, 1, 2, 0x80, std::uint64_t{1} << 61, FAR};

// The view of a row has the bytes that the row has in the pool, inside the file.
void same_row(const std::string &what, Bytes file, const tikomuci::Got<Bytes> &view, std::optional<Bytes> row) {
    if (!row) {
        expect(view.outcome() == ABSENT, what + " is not there");
        return;
    }
    const Bytes seen = view.value_or(Bytes{});
    expect(view && std::equal(row->begin(), row->end(), seen.begin(), seen.end()), what);
    expect(view && seen.data() >= file.data() && seen.data() + seen.size() <= file.data() + file.size(),
           what + " lies in the file");
}

// The view of a section lies in the file, and is not there for an id that no section has.
void sections(const std::string &what, Bytes file, Outcome outcome) {
    const bool walked = outcome || outcome.stage > Stage::Sections;
    for (const std::uint64_t id : std::initializer_list<std::uint64_t>{0, 1, 2, 3, 4, 5, 6, 7, 8, 255}) {
        const auto view = tikomuci::section(file, id);
        const Bytes seen = view.value_or(Bytes{});
        const bool inside = seen.data() >= file.data() && seen.data() + seen.size() <= file.data() + file.size();
        expect(view ? walked && inside : view.outcome() == (walked ? ABSENT : outcome),
               "section " + std::to_string(id) + " of " + what);
    }
}

// A file at a guard through measure and the views, which a refused file refuses alike.
Outcome judged(const std::string &what, Bytes file) {
    const auto tables = tikomuci::read(file);
    expect(tikomuci::measure(file).outcome() == tables.outcome(), what + ": measured as read");
    for (const std::uint64_t index : {std::uint64_t{0}, std::uint64_t{1}, FAR}) {
        const auto string = tikomuci::string(file, index);
        const auto constant = tikomuci::constant(file, index);
        const auto body = tikomuci::body(file, index);
        const std::string row = " " + std::to_string(index) + " of " + what;
        if (tables) {
            const Sheet &sheet = tables->sheet();
            const auto function = sheet.function(index);
            same_row("string" + row, file, string, sheet.string(index));
            same_row("constant" + row, file, constant, sheet.constant(index));
            same_row("body" + row, file, body, function ? std::optional(function->body) : std::nullopt);
        } else {
            expect(string.outcome() == tables.outcome() && constant.outcome() == tables.outcome() &&
                       body.outcome() == tables.outcome(),
                   "row" + row + ": the refusal");
        }
    }
    sections(what, file, tables.outcome());
    return tables.outcome();
}

// Stores of just the size at a guard, and stores that are one word or one byte too small.
void read_between(Memories &memories, const std::string &what, Bytes file, Side side) {
    const auto size = tikomuci::measure(file);
    Wire sheet(size.value_or(Size{}).words * 8);
    Wire pool(size.value_or(Size{}).bytes);
    const Outcome wanted = tikomuci::read(file, sheet, pool).outcome();
    expect(wanted == size.outcome(), what + ": read as measured");
    for (const std::size_t less : {std::size_t{0}, std::size_t{1}}) {
        for (const std::size_t pool_less : {std::size_t{0}, std::size_t{1}}) {
            const std::size_t room = sheet.size() - std::min(sheet.size(), 8 * less);
            const std::size_t pool_room = pool.size() - std::min(pool.size(), pool_less);
            const bool fits = room == sheet.size() && pool_room == pool.size();
            const Output sheet_place = memories.sheet.store(room, side);
            const Output pool_place = memories.pool.store(pool_room, side);
            const auto got = tikomuci::read(file, sheet_place, pool_place);
            expect(got.outcome() == (fits || !wanted ? wanted : FULL), what + ": the outcome");
            const bool filled = fits && wanted;
            expect(memories.sheet.holds(sheet_place, filled ? sheet : Wire{}), what + ": the sheet");
            expect(memories.pool.holds(pool_place, filled ? pool : Wire{}), what + ": the pool");
        }
    }
}

void whole_files() {
    Memories memories;
    for (const Wire &file : {whole_case(), every_table()}) {
        for (const Side side : SIDES) {
            const std::string what = std::to_string(file.size()) + " bytes at a guard";
            const Bytes lent = memories.file.lent(file, side);
            expect(judged(what, lent) == Outcome{}, what + " are accepted");
            read_between(memories, what, lent, side);
        }
    }
}

// Each file that is cut, and each byte as other bytes: many of these files are accepted, and many are refused.
void damaged_files() {
    Memories memories;
    const Wire whole = every_table();
    for (std::size_t size = 0; size < whole.size(); ++size) {
        const Wire cut(whole.begin(), whole.begin() + static_cast<std::ptrdiff_t>(size));
        const std::string what = "cut to " + std::to_string(size) + " bytes at a guard";
        const Bytes lent = memories.file.lent(cut, Side::End);
        expect(judged(what, lent).refusal == Refusal::Short, what);
        read_between(memories, what, lent, Side::End);
    }
    std::size_t accepted = 0;
    std::size_t refused = 0;
    for (std::size_t place = 0; place < whole.size(); ++place) {
        for (const std::uint8_t byte : BYTES) {
            Wire file = whole;
            file[place] = byte;
            const std::string what = "byte " + std::to_string(place) + " as " + std::to_string(byte) + " at a guard";
            for (const Side side : SIDES) {
                const Bytes lent = memories.file.lent(file, side);
                const Outcome outcome = judged(what, lent);
                read_between(memories, what, lent, side);
                ++(outcome ? accepted : refused);
            }
        }
    }
    expect(accepted > 500 && refused > 1000, "damaged files of both kinds");
}

// A sheet and a pool at guards, into an output of just the image's size and into one that is a byte smaller. What is
// written has this sheet and this pool again.
Outcome written_between(Memories &memories, const std::string &what, const Wire &words, const Wire &bytes, Side side) {
    const Bytes sheet = memories.sheet.lent(words, side);
    const Bytes pool = memories.pool.lent(bytes, side);
    const auto size = tikomuci::image(sheet);
    Wire image(size.value_or(0));
    const Outcome wanted = tikomuci::write(sheet, pool, image).outcome();
    expect(wanted == size.outcome(), what + ": written as measured");
    for (const std::size_t less : {std::size_t{0}, std::size_t{1}}) {
        const std::size_t room = image.size() - std::min(image.size(), less);
        const bool fits = room == image.size();
        const Output place = memories.file.store(room, side);
        const auto got = tikomuci::write(sheet, pool, place);
        expect(got.outcome() == (fits || !wanted ? wanted : FULL), what + ": the outcome");
        expect(memories.file.holds(place, fits && wanted ? image : Wire{}), what + ": the image");
    }
    Wire sheet_again(words.size());
    Wire pool_again(bytes.size());
    if (wanted) {
        expect(tikomuci::read(image, sheet_again, pool_again) && sheet_again == words && pool_again == bytes,
               what + ": read back");
    }
    return wanted;
}

// Each sheet that is cut, and each word as other words.
void handed_sheets() {
    Memories memories;
    const std::vector<std::uint64_t> whole = every_table_sheet();
    const Wire words = little_endian(whole);
    const Wire pool = every_table_pool();
    for (const Side side : SIDES) {
        expect(written_between(memories, "a sheet at a guard", words, pool, side) == Outcome{}, "a sheet at a guard");
        for (std::size_t size = 0; size < words.size(); ++size) {
            const Wire cut(words.begin(), words.begin() + static_cast<std::ptrdiff_t>(size));
            const std::string what = "a sheet cut to " + std::to_string(size) + " bytes at a guard";
            expect(written_between(memories, what, cut, pool, side).refusal == Refusal::Sheet, what);
        }
    }
    std::size_t accepted = 0;
    std::size_t refused = 0;
    for (std::size_t place = 0; place < whole.size(); ++place) {
        for (const std::uint64_t word : WORDS) {
            std::vector<std::uint64_t> sheet = whole;
            sheet[place] = word;
            const std::string what = "word " + std::to_string(place) + " as " + std::to_string(word) + " at a guard";
            for (const Side side : SIDES) {
                const Outcome outcome = written_between(memories, what, little_endian(sheet), pool, side);
                expect(outcome || outcome == SHEET, what + ": accepted, or not well-formed");
                ++(outcome ? accepted : refused);
            }
        }
    }
    expect(accepted > 150 && refused > 300, "changed sheets of both kinds");
}

// Sheets whose words somebody changes one by one: each way to each row stays inside. How often rows became others.
std::size_t changed_words(Output store, const Sheet &sheet, const Sheet &indexed) {
    std::size_t others = 0;
    const walk::Sums rows = walk::by_range(sheet);
    for (std::size_t place = 0; place < store.size(); place += 8) {
        const Output changing = store.subspan(place, 8);
        const Wire kept(changing.begin(), changing.end());
        for (const std::uint64_t word : WORDS) {
            expect(static_cast<bool>(tikomuci::patch_u64(changing, 0, word)), "a word is changed");
            const walk::Sums changed = walk::by_range(sheet);
            expect(changed.size() == rows.size() && walk::by_number(sheet).size() == rows.size() &&
                       walk::by_number(indexed).size() == rows.size(),
                   "as many rows as there were");
            others += changed == rows ? 0 : 1;
        }
        std::copy(kept.begin(), kept.end(), changing.begin());
    }
    return others;
}

// Sheets over stores at guards, one of them with an index: as they were read, with changed words, and with an index
// that leads elsewhere.
void sheets_over_stores() {
    for (const Side side : SIDES) {
        Memories memories;
        Guarded index_memory(1);
        const Output store = memories.sheet.store(every_table_sheet().size() * 8, side);
        const Output pool = memories.pool.store(every_table_pool().size(), side);
        const auto sheet = tikomuci::read_sheet(every_table(), store, pool);
        auto indexed = Sheet::open(store, pool);
        const Output room = index_memory.store(7 * sizeof(std::uint32_t), side);
        const std::span<std::uint32_t> index(reinterpret_cast<std::uint32_t *>(room.data()), 7);
        expect(sheet && indexed && indexed->index(index), "sheets over stores at guards");
        const walk::Sums rows = walk::by_range(*sheet);
        expect(walk::by_number(*sheet) == rows && walk::by_number(*indexed) == rows, "the rows of stores at guards");
        expect(changed_words(store, *sheet, *indexed) > 100, "changed words change rows");
        for (const std::uint32_t key : {0U, 1U, 11U, 12U, 48U, 49U, 0xFFFFFFFFU}) {
            std::fill(index.begin(), index.end(), key);
            expect(walk::by_number(*indexed).size() == rows.size(), "an index that leads elsewhere");
        }
    }
}

// The limits are judged by the length alone: of a longer file, sheet or pool no byte is touched.
void limits() {
    const std::size_t most = std::size_t{1} << 30;
    void *const memory = mmap(nullptr, most + 1, PROT_NONE, MAP_PRIVATE | MAP_ANONYMOUS | MAP_NORESERVE, -1, 0);
    expect(memory != MAP_FAILED, "address space for a file over the limit");
    if (memory == MAP_FAILED) {
        return;
    }
    const Bytes file(static_cast<const std::uint8_t *>(memory), most + 1);
    const Outcome limit{Refusal::Limit, Stage::Limits};
    expect(tikomuci::measure(file).outcome() == limit, "a file over the limit is not measured");
    expect(tikomuci::read(file, {}, {}).outcome() == limit, "a file over the limit is not read");
    expect(tikomuci::string(file, 0).outcome() == limit, "no string of a file over the limit");
    expect(tikomuci::constant(file, 0).outcome() == limit, "no constant of a file over the limit");
    expect(tikomuci::body(file, 0).outcome() == limit, "no body of a file over the limit");
    const std::size_t most_words = std::size_t{1} << 26;
    const Outcome handed{Refusal::Limit, Stage::Call};
    expect(tikomuci::image(file.first(8 * (most_words + 1))).outcome() == handed, "a sheet over the limit, measured");
    expect(tikomuci::write(file.first(8 * (most_words + 1)), {}, {}).outcome() == handed, "a sheet over the limit");
    expect(tikomuci::write({}, file, {}).outcome() == handed, "a pool over the limit comes before its sheet");
    expect(mprotect(memory, most + 1, PROT_READ) == 0, "a file of zeros");
    expect(tikomuci::measure(file.first(most)).outcome() == Outcome{Refusal::Magic, Stage::Header},
           "a file at the limit is read");
    expect(tikomuci::image(file.first(8 * most_words)).outcome() == SHEET, "a sheet at the limit is judged");
    expect(tikomuci::type_text(file.first(8 * (most_words + 1)), 0).outcome() == SHEET, "a text has no limit");
    expect(tikomuci::write({}, file.first(most), {}).outcome() == SHEET, "a pool at the limit is taken");
    munmap(memory, most + 1);
}

}  // namespace

void guard_tests() {
    guards_hold();
    refusals_assert();
    whole_files();
    damaged_files();
    handed_sheets();
    sheets_over_stores();
    limits();
}
