// Tests of the shared profile cache over lent stores: worked examples by hand, each refusal, damaged stores, and random
// histories beside a model in plain C++.

#include <algorithm>
#include <array>
#include <initializer_list>
#include <random>
#include <string>
#include <vector>

#include "cache_model.hpp"

namespace {

using model::BOTH;
using model::Calls;
using model::copy;
using model::file_of;
using model::longer;
using model::Tried;
using tikomuci::Bytes;
using tikomuci::Outcome;
using tikomuci::outcome_of;
using tikomuci::Output;
using tikomuci::Refusal;
using tikomuci::Stage;

constexpr Outcome NO_SLOT{Refusal::NoSlot, Stage::Call};
constexpr Outcome NO_HEADER{Refusal::Short, Stage::Header};
constexpr std::size_t ROW = TIKOMUCI_OWNER_BYTES;
constexpr std::array<std::uint64_t, 7> WORDS = {0, 1, 2, 0x40, 0x41, std::uint64_t{1} << 63, FAR};

bool has(const tikomuci_answer &answer, std::uint64_t first, std::uint64_t second = 0) {
    return answer.refusal == 0 && answer.stage == 0 && answer.first == first && answer.second == second;
}

bool is(const tikomuci_answer &answer, Outcome refused) {
    return outcome_of(answer) == refused && answer.first == 0 && answer.second == 0;
}

// Stores of an empty cache, and the calls on them.
struct Lent {
    Lent(const Calls &of, std::size_t slot_size)
        : calls(of), buffer(of.slots * slot_size, 0), owners(of.owners_size(), 0) {}

    [[nodiscard]] Tried tried() {
        return Tried(calls, buffer, owners, [](bool holds, const char *what) { expect(holds, what); });
    }
    [[nodiscard]] tikomuci_answer put(std::uint64_t instance, const Wire &file) {
        return calls.put(buffer.data(), buffer.size(), owners.data(), owners.size(), instance, file.data(),
                         file.size());
    }
    [[nodiscard]] tikomuci_answer fetch(std::uint64_t instance, std::uint64_t index) const {
        return calls.fetch(buffer.data(), buffer.size(), owners.data(), owners.size(), instance, index);
    }
    [[nodiscard]] tikomuci_answer drop(std::uint64_t instance) {
        return calls.drop(buffer.data(), buffer.size(), owners.data(), owners.size(), instance);
    }

    // Whether a slot begins with these bytes, and a row with these words, and all behind them is 0.
    [[nodiscard]] bool slot_is(std::size_t number, Wire bytes) const {
        bytes.resize(buffer.size() / calls.slots, 0);
        return model::same(Bytes(buffer).subspan(number * bytes.size(), bytes.size()), bytes);
    }
    [[nodiscard]] bool row_is(std::size_t number, const std::vector<std::uint64_t> &words) const {
        Wire row = little_endian(words);
        row.resize(ROW, 0);
        return model::same(Bytes(owners).subspan(number * ROW, ROW), row);
    }
    void set_row(std::size_t number, const std::vector<std::uint64_t> &words) {
        const Wire row = little_endian(words);
        std::copy(row.begin(), row.end(), owners.begin() + static_cast<std::ptrdiff_t>(number * ROW));
    }

    const Calls &calls;
    Wire buffer;
    Wire owners;
};

void by_hand(const Calls &calls) {
    Lent cache(calls, 200);
    const Wire one = every_table();
    const Wire two = file_of({{1, 2, 3, 4, 5}, {6}});
    expect(has(cache.put(70, one), 0) && has(cache.put(FAR, two), 1), "the lowest free slots");
    expect(cache.slot_is(0, one) && cache.slot_is(1, two) && cache.slot_is(2, {}), "files, and zeros behind them");
    expect(cache.row_is(0, {1, 70, one.size()}) && cache.row_is(1, {1, FAR, two.size()}) && cache.row_is(2, {}),
           "mark, instance and length");
    expect(has(cache.fetch(70, 0), 80, 3), "the place of a constant in the first slot");
    const tikomuci_answer fetched = cache.fetch(FAR, 1);
    expect(fetched.refusal == 0 && fetched.first > 200 && fetched.second == 1 && cache.buffer[fetched.first] == 6,
           "the place of a constant in the second slot");
    expect(is(cache.fetch(FAR, 2), ABSENT) && is(cache.fetch(FAR, FAR), ABSENT), "no such entry");
    expect(is(cache.fetch(0, 0), ABSENT) && is(cache.drop(0), ABSENT), "nothing is held");

    expect(has(cache.drop(70), 0) && cache.slot_is(0, {}) && cache.row_is(0, {}), "a drop leaves zeros");
    expect(is(cache.drop(70), ABSENT) && is(cache.fetch(70, 0), ABSENT), "what was dropped is gone");
    expect(cache.slot_is(1, two) && cache.row_is(1, {1, FAR, two.size()}), "the neighbour stays");
    expect(has(cache.put(0, two), 0) && has(cache.put(FAR, one), 1), "a freed slot, and one that was held");
    expect(cache.slot_is(1, one) && cache.row_is(1, {1, FAR, one.size()}) && has(cache.fetch(FAR, 0), 280, 3),
           "a file that is replaced");
    expect(has(cache.put(FAR, two), 1) && cache.slot_is(1, two), "nothing is left of a longer file");
}

// All slots are taken: one more asks, one who holds a slot puts again, and slots that are freed are taken.
void all_taken(const Calls &calls) {
    Lent lent(calls, 64);
    Tried cache = lent.tried();
    const auto file = [](std::uint64_t number) { return file_of({{static_cast<std::uint8_t>(number), 1}}); };
    for (std::uint64_t i = 0; i < calls.slots; ++i) {
        expect(has(cache.put(1000 + i, file(i)), i), "slot after slot");
    }
    expect(is(cache.put(0, file(0)), NO_SLOT), "no slot");
    expect(is(cache.put(0, longer(file(0), 65)), FULL), "too large comes before no slot");
    expect(is(cache.put(0, longer({}, 65)), {Refusal::Magic, Stage::Header}), "and what is no file before that");
    expect(has(cache.put(1003, file(99)), 3), "who holds a slot needs no other");
    expect(has(cache.drop(1007), 7) && has(cache.drop(1002), 2), "two slots are freed");
    expect(has(cache.put(0, file(0)), 2) && has(cache.put(1, file(1)), 7) && is(cache.put(2, file(2)), NO_SLOT),
           "the lowest is taken first");
    std::size_t own = 0;
    for (std::uint64_t i = 0; i < calls.slots; ++i) {
        own += cache.fetch(1000 + i, 0).refusal == 0 ? 1U : 0U;
    }
    expect(own == calls.slots - 2, "the others have theirs");
}

void sizes(const Calls &calls) {
    const Wire file = every_table();
    Lent exact(calls, file.size());
    expect(has(exact.tried().put(1, file), 0) && has(exact.tried().put(2, file), 1), "files that just fit");
    expect(has(exact.fetch(1, 0), 80, 3) && has(exact.fetch(2, 0), 142 + 80, 3), "their constants");
    Lent small(calls, file.size() - 1);
    expect(is(small.tried().put(1, file), FULL), "one byte too large");
    expect(is(small.tried().put(1, Bytes(file).first(141)), {Refusal::Short, Stage::Sections}), "a cut file that fits");
    Lent none(calls, 0);
    Tried cache = none.tried();
    expect(is(cache.put(1, file), FULL) && is(cache.put(1, {}), NO_HEADER) && is(cache.fetch(1, 0), ABSENT) &&
               is(cache.drop(1), ABSENT),
           "slots of no bytes");
}

// Null pointers with a length of 0, wherever there may be one.
void null_spans(const Calls &calls) {
    Lent none(calls, 0);
    std::uint8_t *const owners = none.owners.data();
    const std::size_t size = none.owners.size();
    expect(is(calls.put(nullptr, 0, owners, size, 1, nullptr, 0), NO_HEADER) &&
               is(calls.fetch(nullptr, 0, owners, size, 1, 0), ABSENT) &&
               is(calls.drop(nullptr, 0, owners, size, 1), ABSENT),
           "no buffer");
    none.set_row(3, {1, 8, 0});
    expect(is(calls.fetch(nullptr, 0, owners, size, 8, 0), NO_HEADER) &&
               has(calls.drop(nullptr, 0, owners, size, 8), 3) && none.row_is(3, {}),
           "no buffer, and a row of no bytes");
    expect(is(calls.put(nullptr, 0, nullptr, 0, 1, nullptr, 0), SHEET) &&
               is(calls.fetch(nullptr, 0, nullptr, 0, 1, 0), SHEET) && is(calls.drop(nullptr, 0, nullptr, 0, 1), SHEET),
           "no stores");
}

// The calls of an instance, with a file that is cut, one that is too large and a good one, each judged by the model.
// Whether they were refused with 12, which all of them are or none.
bool each_call(Lent &lent, std::uint64_t instance) {
    Tried cache = lent.tried();
    const Wire good = file_of({{1, 2}});
    const bool refused = is(cache.put(instance, Bytes(good).first(20)), SHEET);
    const std::array<tikomuci_answer, 4> answers = {cache.put(instance, longer(good, 4096)), cache.fetch(instance, 0),
                                                    cache.put(instance, good), cache.drop(instance)};
    const bool alike = std::all_of(answers.begin(), answers.end(),
                                   [&](const tikomuci_answer &answer) { return is(answer, SHEET) == refused; });
    expect(alike, "stores are no cache to all calls or to none");
    return refused;
}

void lengths(const Calls &calls) {
    for (const std::size_t more : {std::size_t{1}, calls.slots - 1, calls.slots + 1}) {
        Lent cache(calls, 80);
        cache.buffer.resize(cache.buffer.size() + more);
        expect(each_call(cache, 1), "a buffer that is no multiple");
    }
    for (const std::size_t size : {std::size_t{0}, std::size_t{1}, ROW, calls.owners_size() - ROW,
                                   calls.owners_size() - 1, calls.owners_size() + 1, calls.owners_size() + ROW}) {
        Lent cache(calls, 80);
        cache.owners.assign(size, 0);
        expect(each_call(cache, 1), "a table of another number of rows");
    }
}

void tables(const Calls &calls) {
    const std::size_t last = calls.slots - 1;
    Lent twice(calls, 80);
    twice.set_row(2, {1, 9, 0});
    twice.set_row(last, {1, 9, 0});
    expect(each_call(twice, 9) && each_call(twice, 8), "one instance twice");
    twice.set_row(last, {7, 9, 0});
    expect(each_call(twice, 9), "one instance twice, by another mark");
    twice.set_row(last, {0, 9, FAR});
    expect(!each_call(twice, 8), "one instance twice, once in a free row");
    Lent length(calls, 80);
    length.set_row(last, {1, 9, 81});
    expect(each_call(length, 9) && each_call(length, 8), "a length above the slot's");
    length.set_row(last, {1, 9, 80});
    expect(!each_call(length, 8), "a length that is the slot's");
    length.set_row(last, {1, 9, FAR});
    expect(each_call(length, 8), "a length that would wrap");
}

// A mark is 0 or it is not; and what a free row has behind it does not count, and is gone when the row is taken.
void marks(const Calls &calls) {
    const Wire file = file_of({{1, 2}});
    for (const std::uint64_t mark : {std::uint64_t{2}, std::uint64_t{1} << 8, std::uint64_t{1} << 63, FAR}) {
        Lent lent(calls, 80);
        expect(has(lent.put(9, file), 0), "a slot is taken");
        lent.set_row(0, {mark, 9, file.size()});
        Tried cache = lent.tried();
        expect(cache.fetch(9, 0).refusal == 0 && has(cache.put(8, file), 1), "a slot is taken by any mark");
        expect(has(cache.put(9, file), 0) && lent.row_is(0, {1, 9, file.size()}), "a put marks its row anew");
        lent.set_row(1, {mark, 8, file.size()});
        cache.changed();
        expect(has(cache.drop(8), 1) && lent.row_is(1, {}), "a drop clears any mark");
    }
    Lent lent(calls, 80);
    for (std::size_t slot = 0; slot < calls.slots; ++slot) {
        lent.set_row(slot, {0, 9, FAR});
    }
    std::fill(lent.buffer.begin(), lent.buffer.end(), CANARY);
    Tried cache = lent.tried();
    expect(is(cache.fetch(9, 0), ABSENT) && is(cache.drop(9), ABSENT), "a free row holds nothing");
    expect(has(cache.put(5, file), 0) && has(cache.put(9, file), 1), "free rows are taken");
    expect(lent.slot_is(0, file) && lent.row_is(0, {1, 5, file.size()}), "nothing of a free row is left");
}

// Rows of a few instances, with each word as other words: most of these are no cache.
void changed_words(const Calls &calls) {
    std::array<std::size_t, 2> seen{};
    const Wire file = file_of({{1, 2}});
    for (std::size_t place = 0; place < 3 * calls.slots; ++place) {
        for (const std::uint64_t word : WORDS) {
            Lent lent(calls, 64);
            for (const std::uint64_t instance : {std::uint64_t{0}, std::uint64_t{1}, std::uint64_t{2}, FAR}) {
                expect(lent.put(instance, file).refusal == 0, "a slot is taken");
            }
            expect(static_cast<bool>(tikomuci::patch_u64(lent.owners, 8 * place, word)), "a word is changed");
            ++seen[each_call(lent, 2) ? 1 : 0];
        }
    }
    expect(seen[0] > 100 && seen[1] >= 10, "changed words of both kinds");
}

// A file that somebody damages in its slot: a fetch answers what `constant` answers of the kept length.
void damaged_files(const Calls &calls) {
    std::size_t refused = 0;
    Lent lent(calls, 150);
    expect(has(lent.put(6, file_of({{1}})), 0) && has(lent.put(7, every_table()), 1), "two slots are taken");
    const Wire whole = lent.buffer;
    for (std::size_t place = 150; place < 300; ++place) {
        for (const std::uint8_t byte : {std::uint8_t{0}, std::uint8_t{1}, std::uint8_t{0x7F}, std::uint8_t{0xFF}}) {
            lent.buffer = whole;
            lent.buffer[place] = byte;
            Tried cache = lent.tried();
            refused += cache.fetch(7, 0).refusal != 0 ? 1U : 0U;
            expect(cache.fetch(6, 0).refusal == 0, "the neighbour's file is whole");
        }
    }
    expect(refused > 100, "files that are damaged in their slot");
    lent.buffer = whole;
    lent.buffer[150] = 0;
    expect(is(lent.tried().fetch(7, 0), {Refusal::Magic, Stage::Header}), "the refusal is the file's own");
    lent.buffer = whole;
    for (std::uint64_t length = 0; length < 142; ++length) {
        lent.set_row(1, {1, 7, length});
        expect(is(lent.tried().fetch(7, 0), {Refusal::Short, length < 12 ? Stage::Header : Stage::Sections}),
               "no byte behind the kept length is read");
    }
}

// What a history has met.
struct Met {
    std::size_t puts = 0;
    std::size_t fetches = 0;
    std::size_t drops = 0;
    std::size_t too_large = 0;
    std::size_t no_slot = 0;
    std::size_t absent = 0;
    std::size_t bad_files = 0;
};

// A file of any kind: good, just fitting, one byte too large, cut, with hints, no file.
Wire any_file(std::mt19937_64 &random, std::size_t slot_size) {
    std::vector<Wire> constants(random() % 4);
    for (Wire &constant : constants) {
        constant.resize(random() % 20);
        std::generate(constant.begin(), constant.end(), [&] { return static_cast<std::uint8_t>(random()); });
    }
    Wire file = file_of(constants);
    switch (random() % 10) {
        case 0:
            return longer(file, slot_size);
        case 1:
            return longer(file, slot_size + 1);
        case 2:
            file.resize(random() % file.size());
            return file;
        case 3:
            file = every_table();
            file[97] = TIKOMUCI_FUNCTION_HINTS;
            return file;
        case 4:
            return every_table();
        default:
            return file;
    }
}

void step(Tried &cache, std::mt19937_64 &random, std::size_t instances, Met &met) {
    const std::uint64_t number = random() % instances;
    const std::uint64_t instance = number % 2 == 0 ? number / 2 : FAR - number / 2;
    const std::uint64_t kind = random() % 10;
    const tikomuci_answer answer = kind < 5   ? cache.put(instance, any_file(random, 160))
                                   : kind < 9 ? cache.fetch(instance, random() % 3)
                                              : cache.drop(instance);
    if (answer.refusal == 0) {
        ++(kind < 5 ? met.puts : kind < 9 ? met.fetches : met.drops);
    } else if (answer.stage != TIKOMUCI_STAGE_CALL) {
        ++met.bad_files;
    } else {
        ++(answer.refusal == TIKOMUCI_REFUSAL_FULL      ? met.too_large
           : answer.refusal == TIKOMUCI_REFUSAL_NO_SLOT ? met.no_slot
                                                        : met.absent);
    }
}

void histories(const Calls &calls) {
    std::mt19937_64 random(calls.slots);
    Met met;
    for (int history = 0; history < 4; ++history) {
        Lent lent(calls, 160);
        Tried cache = lent.tried();
        for (int call = 0; call < 1000; ++call) {
            step(cache, random, calls.slots * 3 / 2, met);
        }
    }
    expect(met.puts > 500 && met.fetches > 300 && met.drops > 100, "histories with calls that are accepted");
    expect(met.too_large > 50 && met.no_slot > 50 && met.absent > 100 && met.bad_files > 100,
           "histories with calls that are refused");
}

template <typename Put, typename Fetch, typename Drop>
void over_spans(const Calls &calls, Put put, Fetch fetch, Drop drop) {
    Lent lent(calls, 150);
    const auto slot = put(lent.buffer, lent.owners, 3, every_table());
    expect(slot && *slot == 0, "a put over spans");
    const auto constant = fetch(lent.buffer, lent.owners, 3, 0);
    expect(constant && constant->data() == lent.buffer.data() + 80 && constant->size() == 3, "a fetch over spans");
    expect(fetch(lent.buffer, lent.owners, 3, 1).outcome() == ABSENT, "no such entry over spans");
    const Wire kept = lent.buffer;
    const Wire rows = lent.owners;
    Output all(lent.buffer);
    const Output table(lent.owners);
    expect(put(all, table, 3, Bytes(all).subspan(0, 142)).outcome() == tikomuci::OVERLAPPING &&
               put(all, table, 3, table.last(1)).outcome() == tikomuci::OVERLAPPING &&
               put(all, all.last(calls.owners_size()), 3, every_table()).outcome() == tikomuci::OVERLAPPING &&
               fetch(all, all.first(calls.owners_size()), 3, 0).outcome() == tikomuci::OVERLAPPING &&
               drop(all, all.first(calls.owners_size()), 3).outcome() == tikomuci::OVERLAPPING,
           "spans that overlap");
    expect(lent.buffer == kept && lent.owners == rows, "spans that overlap stay");
    const auto freed = drop(lent.buffer, lent.owners, 3);
    expect(freed && *freed == 0 && lent.row_is(0, {}), "a drop over spans");
    expect(drop(lent.buffer, lent.owners, 3).outcome() == ABSENT, "nothing to drop over spans");
}

}  // namespace

void cache_tests() {
    for (const Calls &calls : BOTH) {
        by_hand(calls);
        all_taken(calls);
        sizes(calls);
        null_spans(calls);
        lengths(calls);
        tables(calls);
        marks(calls);
        changed_words(calls);
        damaged_files(calls);
        histories(calls);
    }
    over_spans(BOTH[0], tikomuci::cache_put, tikomuci::cache_fetch, tikomuci::cache_drop);
    over_spans(BOTH[1], tikomuci::session_put, tikomuci::session_fetch, tikomuci::session_drop);
}
