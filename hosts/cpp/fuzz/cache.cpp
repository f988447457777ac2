// A fuzz target: any bytes as a history of calls on a cache, and of damage to its stores, through put, fetch and drop.
// Each call is made of the library and of a model in plain C++ beside it.

#include <algorithm>

#include "../tests/cache_model.hpp"
#include "claims.hpp"

namespace {

using namespace fuzz;
using model::Calls;
using model::Tried;

// The input from its front on; behind its end all numbers are 0.
class History {
  public:
    explicit History(Bytes input) : rest_(input) {}

    [[nodiscard]] bool ended() const { return rest_.empty(); }

    std::uint64_t number() {
        const Bytes one = bytes(1);
        return one.empty() ? 0 : one[0];
    }

    Bytes bytes(std::size_t count) {
        const Bytes taken = rest_.first(std::min(count, rest_.size()));
        rest_ = rest_.subspan(taken.size());
        return taken;
    }

    // Few instances, so that they meet, and those at both ends of all numbers.
    std::uint64_t instance() {
        const std::uint64_t low = number();
        return low < 128 ? low : FAR - (low - 128);
    }

  private:
    Bytes rest_;
};

// A good file: a constant that is as long and has the bytes that the history says, behind one of no bytes.
Wire good_file(History &history) {
    const std::uint64_t length = history.number() % 64;
    const Wire constant(length, static_cast<std::uint8_t>(history.number()));
    return model::file_of({{}, constant});
}

Wire any_file(History &history, std::size_t slot_size) {
    switch (history.number() % 5) {
        case 0:
            return model::copy(history.bytes(history.number()));
        case 1:
            return model::longer(good_file(history), slot_size);
        case 2:
            return model::longer(good_file(history), slot_size + 1);
        default:
            return good_file(history);
    }
}

// What somebody else writes into a store: a byte, or a word of the owner table, anywhere.
void damaged(History &history, Output buffer, Output owners) {
    const std::uint64_t kind = history.number();
    const Output store = kind % 2 == 0 ? buffer : owners;
    const std::uint64_t high = history.number();
    const std::uint64_t place = high << 8 | history.number();
    if (kind % 4 == 3) {
        const std::uint64_t word = owners.size() < 8 ? 0 : place % (owners.size() / 8);
        static_cast<void>(tikomuci::patch_u64(owners, 8 * word, history.instance()));
    } else if (!store.empty()) {
        store[place % store.size()] = static_cast<std::uint8_t>(history.number());
    }
}

// Those who hold a slot are those of the model, where there is one.
void listed(const Tried &cache, Bytes owners) {
    const tikomuci::Holders holders = tikomuci::holders(owners);
    if (!cache.cache()) {
        return;
    }
    claim(holders.size() == cache.cache()->size(), "as many hold a slot as the model says");
    for (const tikomuci::Holder &holder : holders) {
        claim(holder.length == cache.cache()->file(holder.instance).size(), "a holder's length is that of its file");
    }
}

void step(History &history, Tried &cache, Output buffer, Output owners, std::size_t slot_size) {
    const std::uint64_t kind = history.number();
    if (kind % 8 == 7) {
        damaged(history, buffer, owners);
        cache.changed();
        return;
    }
    const std::uint64_t instance = history.instance();
    if (kind % 8 == 6) {
        static_cast<void>(cache.drop(instance));
    } else if (kind % 2 == 0) {
        static_cast<void>(cache.put(instance, any_file(history, slot_size)));
    } else {
        static_cast<void>(cache.fetch(instance, kind / 8 % 4));
    }
}

}  // namespace

// The first bytes say how many slots there are, whether the stores are as long as they should be, and how long a slot
// is.
extern "C" int LLVMFuzzerTestOneInput(const std::uint8_t *data, std::size_t size) {
    History history(Bytes(data, size));
    const std::uint64_t flags = history.number();
    const Calls &calls = model::BOTH[flags % 2];
    const std::size_t slot_size = history.number();
    const std::uint64_t lengths = flags / 2 % 8;
    Store buffer(calls.slots * slot_size + (lengths == 7 ? 1 : 0));
    Store owners(calls.owners_size() + (lengths == 6 ? TIKOMUCI_OWNER_BYTES : 0) - (lengths == 5 ? 1 : 0));
    for (const Output store : {buffer.lent(), owners.lent()}) {
        std::fill(store.begin(), store.end(), std::uint8_t{0});
    }
    Tried cache(calls, buffer.lent(), owners.lent(), claim);
    while (!history.ended()) {
        step(history, cache, buffer.lent(), owners.lent(), slot_size);
        listed(cache, owners.lent());
    }
    claim(buffer.kept_but(buffer.lent().size()) && owners.kept_but(owners.lent().size()),
          "no byte outside the stores changes");
    return 0;
}
