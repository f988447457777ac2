// A fuzz target: any bytes as a file, through measure, read and the views; and what was read, through image and write.

#include <array>
#include <initializer_list>
#include <optional>

#include "claims.hpp"
#include "sections.hpp"

namespace {

using namespace fuzz;
using tikomuci::outcome_of;
using tikomuci::Section;
using tikomuci::Stage;

using View = tikomuci_answer (*)(const std::uint8_t *, std::size_t, std::uint64_t);

constexpr unsigned numbers(std::initializer_list<unsigned> refusals) {
    unsigned set = 0;
    for (const unsigned refusal : refusals) {
        set |= 1U << refusal;
    }
    return set;
}

// The refusals of a file by stage, as tikomuci.h lists them.
constexpr std::array<unsigned, TIKOMUCI_STAGE_CALL> REFUSALS_OF_FILES = {
    numbers({1}),        numbers({2, 4}),          numbers({2, 3, 5}),    numbers({2, 3, 5, 6}),
    numbers({2, 3, 7}),  numbers({2, 3, 5, 6, 8}), numbers({2, 3, 5, 6}), numbers({2, 3}),
    numbers({2, 3, 10}), numbers({2, 3, 5, 6, 9}),
};

bool known(Outcome refused) {
    const std::uint64_t stage = number_of(refused.stage);
    return stage < REFUSALS_OF_FILES.size() && refused.refusal <= tikomuci::Refusal::Absent &&
           (REFUSALS_OF_FILES[stage] >> number_of(refused.refusal) & 1U) != 0;
}

void view_refused(Bytes file, View view, std::uint64_t number, Outcome wanted) {
    const tikomuci_answer answer = view(file.data(), file.size(), number);
    claim(outcome_of(answer) == wanted, "a view is refused with the number and the stage that it should have");
    claim(answer.first == 0 && answer.second == 0, "a refused view has no other data");
}

bool inside(const tikomuci_answer &part, std::uint64_t start, std::uint64_t size) {
    return part.first >= start && part.first - start <= size && part.second <= size - (part.first - start);
}

// The section views, judged by a walk that shares no code with the library: what it refuses is refused alike, by
// measure too, and else each payload that counts is viewed, and no other.
void judge_sections(Bytes file, Outcome measured) {
    const sections::Walked wanted = sections::Walk(file.data(), file.size()).whole();
    const Outcome walk{static_cast<tikomuci::Refusal>(wanted.refused), static_cast<Stage>(wanted.stage)};
    claim(walk ? measured || measured.stage > Stage::Sections : measured == walk,
          "a file is judged by its header and its sections first");
    for (const std::uint64_t id : std::initializer_list<std::uint64_t>{0, 1, 2, 3, 4, 5, 6, 7, 8, 127, 129, FAR}) {
        const auto payload = id < wanted.payloads.size() ? wanted.payloads[id] : std::nullopt;
        if (!walk || !payload) {
            view_refused(file, tikomuci_section, id, walk ? ABSENT : walk);
            continue;
        }
        const tikomuci_answer answer = tikomuci_section(file.data(), file.size(), id);
        claim(outcome_of(answer) == Outcome{}, "each section that is there is viewed");
        claim(answer.first == payload->offset && answer.second == payload->length,
              "the view of a section is the payload that counts");
    }
}

// The views of all rows of a table, each with the bytes that the row has in the pool and inside the table's section;
// and numbers that no row has.
template <typename Row>
void rows(Bytes file, View view, Section id, std::uint64_t count, Row row) {
    const tikomuci_answer section = tikomuci_section(file.data(), file.size(), number_of(id));
    claim(count == 0 || section.refusal == 0, "a table that has rows has a section");
    for (std::uint64_t i = 0; i < count; ++i) {
        const tikomuci_answer answer = view(file.data(), file.size(), i);
        claim(outcome_of(answer) == Outcome{}, "each row is viewed");
        claim(inside(answer, section.first, section.second), "a row lies inside its section");
        claim(same(file.subspan(answer.first, answer.second), row(i)), "a view has the bytes of its row in the pool");
    }
    for (const std::uint64_t number : {count, count + 1, FAR}) {
        view_refused(file, view, number, ABSENT);
    }
}

void accepted(Bytes file, Size size) {
    const Stores stores = read_whole(file, size);
    const auto tables = tikomuci::read(file);
    claim(tables.outcome() == Outcome{}, "the tables of an accepted file can be opened");
    const tikomuci::Sheet &sheet = tables->sheet();
    claim(same(sheet.bytes(), stores.sheet) && same(sheet.pool(), stores.pool),
          "the tables have the stores that were read");
    rows(file, tikomuci_string, Section::String, sheet.strings().size(),
         [&](std::uint64_t i) { return sheet.string(i).value(); });
    rows(file, tikomuci_constant, Section::Constant, sheet.constants().size(),
         [&](std::uint64_t i) { return sheet.constant(i).value(); });
    rows(file, tikomuci_body, Section::Func, sheet.functions().size(),
         [&](std::uint64_t i) { return sheet.function(i).value().body; });
    written_and_back(stores.sheet, stores.pool);
}

// All calls that judge a whole file refuse it alike, whether there is room for a result or not.
void refused(Bytes file, const tikomuci::Got<Size> &measured) {
    claim(known(measured.outcome()), "a file is refused with a number that the stage has");
    for (const std::size_t room : std::initializer_list<std::size_t>{0, 4 * file.size()}) {
        read_refused(file, 8 * room, room, measured.outcome());
    }
    for (const View view : {tikomuci_string, tikomuci_constant, tikomuci_body}) {
        for (const std::uint64_t number : {std::uint64_t{0}, std::uint64_t{1}, FAR}) {
            view_refused(file, view, number, measured.outcome());
        }
    }
}

}  // namespace

extern "C" int LLVMFuzzerTestOneInput(const std::uint8_t *data, std::size_t size) {
    const Bytes file(data, size);
    const auto measured = tikomuci::measure(file);
    judge_sections(file, measured.outcome());
    if (measured) {
        accepted(file, *measured);
    } else {
        refused(file, measured);
    }
    return 0;
}
