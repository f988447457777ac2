// Tests of the cache where buffer, owner table and file each end at a page that nothing may touch, or begin behind one,
// and where what a call may only read cannot be written.

#include <algorithm>
#include <array>
#include <random>
#include <string>
#include <vector>

#include "cache_model.hpp"
#include "guarded.hpp"

namespace {

using model::BOTH;
using model::Cache;
using model::Calls;
using model::copy;
using model::file_of;
using model::longer;
using model::same;
using model::Tried;
using tikomuci::Bytes;
using tikomuci::Output;

constexpr std::size_t SLOT = 100;
// The library copies a long file by so many bytes at once.
constexpr std::size_t BLOCK = 65536;
constexpr std::array<std::uint64_t, 6> WORDS = {0, 1, SLOT, SLOT + 1, std::uint64_t{1} << 63, FAR};

// No page has fewer bytes.
constexpr std::size_t PAGE = 4096;

struct Memories {
    explicit Memories(std::size_t buffer_size = 2 * PAGE, std::size_t file_size = PAGE)
        : buffer((buffer_size + PAGE - 1) / PAGE), file((file_size + PAGE - 1) / PAGE) {}

    Guarded buffer;
    Guarded owners{1};
    Guarded file;
};

// The stores of an empty cache, each at a side of its memory.
struct Stores {
    Stores(Memories &memories, const Calls &calls, std::size_t slot_size, Side side)
        : memory(memories),
          buffer(memories.buffer.store(calls.slots * slot_size, side)),
          owners(memories.owners.store(calls.owners_size(), side)) {
        std::fill(buffer.begin(), buffer.end(), std::uint8_t{0});
        std::fill(owners.begin(), owners.end(), std::uint8_t{0});
    }

    [[nodiscard]] Tried tried(const Calls &calls) const {
        return Tried(calls, buffer, owners, [](bool holds, const char *what) { expect(holds, what); });
    }

    // Whether the memory around the stores is as it was.
    [[nodiscard]] bool apart() const {
        return memory.buffer.holds(buffer, copy(buffer)) && memory.owners.holds(owners, copy(owners));
    }

    Memories &memory;
    Output buffer;
    Output owners;
};

// Files of the slot's size, one byte larger, shorter, and of no bytes, in turn: the last slot ends at a guard.
void histories(const Calls &calls, Side side) {
    Memories memories;
    const Stores stores(memories, calls, SLOT, side);
    Tried cache = stores.tried(calls);
    std::mt19937_64 random(7);
    std::size_t no_slot = 0;
    for (std::uint64_t call = 0; call < 6 * calls.slots; ++call) {
        const std::uint64_t instance = random() % (calls.slots + 4);
        const Wire file = file_of({Wire(random() % 30, static_cast<std::uint8_t>(call))});
        const std::array<Wire, 4> files = {longer(file, SLOT), longer(file, SLOT + 1), file, Wire()};
        const Bytes lent = memories.file.lent(files[call % 8 < 4 ? call % 4 : 2], side);
        no_slot += cache.put(instance, lent).refusal == TIKOMUCI_REFUSAL_NO_SLOT ? 1U : 0U;
        static_cast<void>(cache.fetch(random() % (calls.slots + 4), 0));
        if (call % 40 == 0) {
            static_cast<void>(cache.drop(random() % (calls.slots + 4)));
        }
        expect(stores.apart(), "no byte outside the stores changes");
    }
    expect(no_slot > 0 && cache.cache()->size() > calls.slots / 2, "a history that fills the slots");
}

// A buffer and a table that can be read alone: a fetch answers what the model answers of them.
void fetched(Memories &memories, const Calls &calls, const Wire &buffer, const Wire &owners, Side side) {
    const Bytes slots = memories.buffer.lent(buffer, side);
    const Bytes rows = memories.owners.lent(owners, side);
    const auto cache = Cache::of(calls.slots, slots, rows);
    for (const std::uint64_t instance : {std::uint64_t{0}, std::uint64_t{1}, FAR}) {
        for (const std::uint64_t index : {std::uint64_t{0}, std::uint64_t{1}, FAR}) {
            const tikomuci_answer wanted =
                cache ? cache->fetch(instance, index) : model::refused(TIKOMUCI_REFUSAL_SHEET);
            expect(same(calls.fetch(slots.data(), slots.size(), rows.data(), rows.size(), instance, index), wanted),
                   "a fetch from memory that cannot be written");
        }
    }
    expect(tikomuci::holders(rows).size() <= calls.slots, "the rows of a table at a guard");
}

// Stores in which the first and the last slots are taken, as they are and with each word of their rows as other words.
void damaged_tables(const Calls &calls, Side side) {
    Memories memories;
    const Stores stores(memories, calls, SLOT, side);
    Tried cache = stores.tried(calls);
    const Wire file = longer(file_of({{1, 2, 3}}), SLOT);
    for (std::uint64_t i = 0; i < calls.slots; ++i) {
        expect(cache.put(i + 1 == calls.slots ? FAR : i, file).refusal == 0, "a slot is taken");
    }
    const Wire buffer = copy(stores.buffer);
    const Wire owners = copy(stores.owners);
    fetched(memories, calls, buffer, owners, side);
    const std::size_t words = 3 * calls.slots;
    for (const std::size_t place : {std::size_t{0}, std::size_t{1}, std::size_t{2}, words - 3, words - 2, words - 1}) {
        for (const std::uint64_t word : WORDS) {
            Wire changed = owners;
            expect(static_cast<bool>(tikomuci::patch_u64(changed, 8 * place, word)), "a word is changed");
            fetched(memories, calls, buffer, changed, side);
            const Stores again(memories, calls, SLOT, side);
            std::copy(buffer.begin(), buffer.end(), again.buffer.begin());
            std::copy(changed.begin(), changed.end(), again.owners.begin());
            Tried damaged = again.tried(calls);
            static_cast<void>(damaged.put(FAR, memories.file.lent(file, side)));
            static_cast<void>(damaged.drop(0));
            expect(again.apart(), "no byte outside damaged stores changes");
        }
    }
}

// Tables that are a byte or a row short or long, and buffers that are: nothing outside of them is looked at.
void other_lengths(const Calls &calls, Side side) {
    Memories memories;
    const Bytes file = memories.file.lent(every_table(), side);
    for (const std::size_t rows : {std::size_t{0}, std::size_t{1}, calls.owners_size() - TIKOMUCI_OWNER_BYTES,
                                   calls.owners_size() - 1, calls.owners_size() + 1}) {
        for (const std::size_t size : {std::size_t{0}, std::size_t{1}, calls.slots * SLOT - 1, calls.slots * SLOT}) {
            const Output buffer = memories.buffer.store(size, side);
            const Output owners = memories.owners.store(rows, side);
            const auto put = calls.put(buffer.data(), size, owners.data(), rows, 1, file.data(), file.size());
            const auto fetch = calls.fetch(buffer.data(), size, owners.data(), rows, 1, 0);
            const auto drop = calls.drop(buffer.data(), size, owners.data(), rows, 1);
            const tikomuci_answer wanted = model::refused(TIKOMUCI_REFUSAL_SHEET);
            expect(same(put, wanted) && same(fetch, wanted) && same(drop, wanted), "stores of other lengths");
            expect(memories.buffer.holds(buffer, {}) && memories.owners.holds(owners, {}), "and they stay");
        }
    }
}

// A file of exactly this size. Bytes of its constant that are 256 or 65,536 places apart differ.
Wire file_of_size(std::size_t size) {
    Wire constant(2 * size - file_of({Wire(size)}).size());
    for (std::size_t i = 0; i < constant.size(); ++i) {
        constant[i] = static_cast<std::uint8_t>(i ^ i >> 8 ^ i >> 16);
    }
    return file_of({constant});
}

// A file about as long as the blocks by which a long one is copied, in the first slot and in the last: file and last
// slot end at a guard. The slots between them are taken.
void long_files(const Calls &calls, std::size_t size, Side side) {
    Memories memories(calls.slots * size, size);
    const Stores stores(memories, calls, size, side);
    for (std::size_t slot = 1; slot + 1 < calls.slots; ++slot) {
        const Wire row = little_endian({1, slot, 0});
        std::copy(row.begin(), row.end(),
                  stores.owners.begin() + static_cast<std::ptrdiff_t>(slot * TIKOMUCI_OWNER_BYTES));
    }
    Tried cache = stores.tried(calls);
    const Wire file = file_of_size(size);
    const Bytes lent = memories.file.lent(file, side);
    const auto first = cache.put(0, lent);
    const auto last = cache.put(FAR, lent);
    expect(file.size() == size && first.refusal == 0 && last.refusal == 0 && last.first + 1 == calls.slots,
           "a file as long as its slot");
    expect(cache.fetch(0, 0).refusal == 0 && cache.fetch(FAR, 0).refusal == 0, "and its constant");
    expect(cache.put(0, memories.file.lent(file_of({{1}}), side)).refusal == 0, "a short file in its place");
    expect(cache.drop(FAR).refusal == 0, "a long file is dropped");
    expect(stores.apart(), "no byte outside the stores of long files changes");
}

}  // namespace

void cache_guard_tests() {
    for (const Calls &calls : BOTH) {
        for (const Side side : SIDES) {
            histories(calls, side);
            damaged_tables(calls, side);
            other_lengths(calls, side);
            for (const std::size_t size : {BLOCK - 1, BLOCK, BLOCK + 1, 2 * BLOCK - 1, 2 * BLOCK, 2 * BLOCK + 1}) {
                long_files(calls, size, side);
            }
        }
    }
}
