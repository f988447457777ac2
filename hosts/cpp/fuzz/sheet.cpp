// A fuzz target: any words and bytes as a handed sheet and its pool, through image and write, as rows, and through the
// texts of types; and what was written, through measure and read.

#include <initializer_list>
#include <optional>
#include <string>

#include "../tests/type_model.hpp"
#include "../tests/walk.hpp"
#include "claims.hpp"
#include "tikomuci_builder.hpp"

namespace {

using namespace fuzz;
using tikomuci::Refusal;
using tikomuci::Sheet;
using tikomuci::Stage;

// What write has to answer if there is room: image's answer, but that a pool of another length is never the sheet's.
Outcome wanted_of(const Stores &stores, Outcome measured) {
    return pool_length(stores.sheet) == stores.pool.size() ? measured : SHEET;
}

void judged(Outcome measured) {
    const bool known = measured.refusal == Refusal::None || measured.refusal == Refusal::Sheet ||
                       measured.refusal == Refusal::Start || measured.refusal == Refusal::Limit;
    claim(known, "a sheet is refused with 12, 13 or 1");
    claim(measured.stage == (measured ? Stage::Limits : Stage::Call), "a sheet is refused at stage 10");
}

// How long a text may be that is made twice. There are far longer ones.
constexpr std::size_t LONGEST_TEXT = 300;

// A text in an output of this size, which is refused, or is this one and all that is changed.
void text_answered(Bytes sheet, std::uint64_t row, std::size_t room, Outcome wanted, const std::string &text = {}) {
    fuzz::Store out(room);
    const tikomuci_answer got = tikomuci_type_text(sheet.data(), sheet.size(), row, out.lent().data(), room);
    claim(tikomuci::outcome_of(got) == wanted, "a text is put, or refused as it should be");
    claim(got.first == text.size() && got.second == 0, "a text has its length, and a refusal no other data");
    claim(out.first(text.size()) == Wire(text.begin(), text.end()),
          "a text is what the second maker makes of the rows");
    claim(out.kept_but(text.size()), "no byte is changed but those of a text that is put");
}

void text_refused(Bytes sheet, std::uint64_t row, Outcome wanted) {
    for (const std::size_t room : std::initializer_list<std::size_t>{0, LONGEST_TEXT}) {
        text_answered(sheet, row, room, wanted);
    }
}

// The sheet is judged before the row, and the row before the room; the pool is none of it.
void type_texts(const Stores &stores, Outcome measured) {
    if (measured == SHEET) {
        text_refused(stores.sheet, 0, SHEET);
        text_refused(stores.sheet, FAR, SHEET);
        return;
    }
    text_refused(stores.sheet, FAR, ABSENT);
    const auto sheet = Sheet::open(stores.sheet, stores.pool);
    const std::uint64_t rows = sheet ? sheet->types().size() : 0;
    for (std::uint64_t row = 0; row < rows; ++row) {
        const auto text = type_model::text_of(*sheet, row, LONGEST_TEXT);
        if (!text) {
            text_refused(stores.sheet, row, FULL);
            continue;
        }
        text_answered(stores.sheet, row, text->size(), {}, *text);
        text_answered(stores.sheet, row, text->size() + 1, {}, *text);
        text_answered(stores.sheet, row, text->size() - 1, FULL);
        text_answered(stores.sheet, row, 0, FULL);
    }
    if (sheet) {
        text_refused(stores.sheet, rows, ABSENT);
    }
}

// The rows of a sheet are the same by each way that leads to them; then somebody writes what else there is over the
// words and over the index, and each way still stays inside.
void walked(Stores stores, Bytes other) {
    const auto sheet = Sheet::open(stores.sheet, stores.pool);
    auto indexed = Sheet::open(stores.sheet, stores.pool);
    claim(sheet && indexed, "a sheet that was opened is opened again");
    const walk::Sums rows = walk::by_range(*sheet);
    claim(walk::by_number(*sheet) == rows, "the row of a number is that of the range");
    std::vector<std::uint32_t> index(indexed->index_size());
    claim(indexed->index(index) == Outcome{}, "a store of the index's size suffices");
    claim(walk::by_number(*indexed) == rows, "the row of a number is the same by an index");
    claim(walk::rows_outside(*sheet) == 0 && walk::rows_outside(*indexed) == 0, "no row behind the last");
    for (std::size_t i = 0; i < stores.sheet.size(); ++i) {
        stores.sheet[i] = other[i % other.size()];
    }
    claim(walk::by_range(*sheet).size() == rows.size() && walk::by_number(*sheet).size() == rows.size() &&
              walk::by_number(*indexed).size() == rows.size(),
          "a sheet has as many rows as it had, whatever became of its words");
    for (std::size_t i = 0; i < index.size(); ++i) {
        index[i] = other[i % other.size()] * 0x01010101U;
    }
    claim(walk::by_number(*indexed).size() == rows.size(), "nor does the index matter");
}

// A well-formed sheet is opened, and a builder that is given its rows makes the same sheet and pool. What is opened and
// not well-formed is only walked.
void opened(const Stores &stores, bool well_formed, Bytes other) {
    const auto sheet = Sheet::open(stores.sheet, stores.pool);
    claim(sheet || sheet.outcome() == SHEET, "a sheet is opened, or is none");
    claim(sheet || !well_formed, "a well-formed sheet is opened");
    if (!sheet) {
        return;
    }
    claim(same(sheet->bytes(), stores.sheet) && same(sheet->pool(), stores.pool), "a sheet has its stores");
    walked(stores, other);
    const tikomuci::Builder again(*sheet);
    claim(!well_formed || (again.sheet() == stores.sheet && again.pool() == stores.pool),
          "the rows of a sheet make the same sheet again");
}

}  // namespace

extern "C" int LLVMFuzzerTestOneInput(const std::uint8_t *data, std::size_t size) {
    const Bytes input(data, size);
    const Stores stores = handed(input);
    const Stores lent = stores;
    const Outcome measured = tikomuci::image(lent.sheet).outcome();
    judged(measured);
    const Outcome wanted = wanted_of(lent, measured);
    if (wanted) {
        written_and_back(lent.sheet, lent.pool);
    } else {
        for (const std::size_t room : std::initializer_list<std::size_t>{0, 4 * size}) {
            write_refused(lent.sheet, lent.pool, room, wanted);
        }
    }
    type_texts(lent, measured);
    claim(same(lent.sheet, stores.sheet) && same(lent.pool, stores.pool), "a sheet that is written stays as it is");
    opened(stores, static_cast<bool>(wanted), input);
    return 0;
}
