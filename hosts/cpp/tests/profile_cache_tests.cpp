// Tests of what tikomuci_cache.hpp has above the calls: who holds which slot, stores for a session, and the cache with
// a lock.

#include <atomic>
#include <chrono>
#include <limits>
#include <string>
#include <thread>
#include <type_traits>
#include <utility>
#include <vector>

#include "cache_model.hpp"

namespace {

using model::file_of;
using model::longer;
using model::same;
using tikomuci::Bytes;
using tikomuci::Got;
using tikomuci::HeldProfile;
using tikomuci::Holder;
using tikomuci::Holders;
using tikomuci::Outcome;
using tikomuci::Output;
using tikomuci::ProfileCache;
using tikomuci::Refusal;
using tikomuci::SessionStores;
using tikomuci::Stage;

constexpr Outcome NO_SLOT{Refusal::NoSlot, Stage::Call};
constexpr Outcome NO_MEMORY{Refusal::Memory, Stage::Call};
constexpr Outcome BUSY{Refusal::Busy, Stage::Call};
constexpr std::size_t OWNERS = TIKOMUCI_SESSION_SLOTS * TIKOMUCI_OWNER_BYTES;

static_assert(!std::is_copy_constructible_v<ProfileCache> && std::is_nothrow_move_constructible_v<ProfileCache>);
static_assert(!std::is_copy_constructible_v<SessionStores> && std::is_nothrow_move_constructible_v<SessionStores>);
static_assert(!std::is_copy_constructible_v<HeldProfile> && std::is_nothrow_move_constructible_v<HeldProfile>);
static_assert(!std::is_copy_assignable_v<HeldProfile> && std::is_nothrow_move_assignable_v<HeldProfile>);

bool lists(const Holders &holders, const std::vector<Holder> &wanted) {
    return holders.size() == wanted.size() && holders.empty() == wanted.empty() &&
           std::equal(holders.begin(), holders.end(), wanted.begin(), wanted.end());
}

// Rows as they stand, of tables that are no cache's too.
void listed_rows() {
    const Wire table = little_endian({1, 7, 100, 0, 8, 200, FAR, FAR, FAR, 0, 0, 0, 2, 7, 0});
    const std::vector<Holder> all = {{0, 7, 100}, {2, FAR, FAR}, {4, 7, 0}};
    expect(lists(tikomuci::holders(table), all) && tikomuci::holders(table)[1] == all[1], "taken rows");
    expect(all[0] != all[2] && lists(tikomuci::holders({}), {}), "no rows");
    for (std::size_t size = 0; size < table.size(); ++size) {
        // In memory of its own, so that an address sanitizer sees one byte outside.
        const Wire cut(table.begin(), table.begin() + static_cast<std::ptrdiff_t>(size));
        const std::size_t rows = size / TIKOMUCI_OWNER_BYTES;
        const std::vector<Holder> wanted(all.begin(), all.begin() + (rows >= 3 ? 2 : rows >= 1 ? 1 : 0));
        expect(lists(tikomuci::holders(cut), wanted), "the whole rows of a table that is cut");
    }
    const Holders most = tikomuci::holders(Wire(OWNERS + 100, 1));
    expect(most.size() == TIKOMUCI_SESSION_SLOTS && most[63].slot == 63, "no more than 64 rows");
}

void session_stores() {
    Got<SessionStores> made = SessionStores::make(150);
    expect(static_cast<bool>(made), "stores for a session");
    SessionStores stores = std::move(*made);
    expect(stores.slot_size() == 150 && same(stores.buffer(), Wire(150 * TIKOMUCI_SESSION_SLOTS, 0)) &&
               same(stores.owners(), Wire(OWNERS, 0)) && stores.holders().empty(),
           "a fresh cache is all zero");
    const auto slot = stores.put(9, every_table());
    const auto constant = stores.fetch(9, 0);
    expect(slot && *slot == 0 && constant && same(*constant, Wire{0xDE, 0xAD, 0xBE}), "put and fetched");
    expect(lists(stores.holders(), {{0, 9, 142}}), "who holds it");
    expect(stores.put(9, longer(every_table(), 151)).outcome() == FULL && lists(stores.holders(), {{0, 9, 142}}),
           "a file that is too large");
    expect(stores.put(8, stores.buffer().first(142)).outcome() == tikomuci::OVERLAPPING, "a file of the stores");
    const SessionStores moved = std::move(stores);
    expect(moved.fetch(9, 0) && constant->data() == moved.buffer().data() + 80, "stores that are moved");
    expect(stores.slot_size() == 0 && stores.buffer().empty() && stores.holders().empty() &&
               stores.put(9, every_table()).outcome() == FULL && stores.fetch(9, 0).outcome() == ABSENT &&
               stores.drop(9).outcome() == ABSENT,
           "what was moved from has slots of no bytes");
}

void sizes_of_slots() {
    const Got<SessionStores> none = SessionStores::make(0);
    expect(none && none->slot_size() == 0 && none->owners().size() == OWNERS, "slots of no bytes");
    const std::size_t most = std::numeric_limits<std::size_t>::max();
    for (const std::size_t size : {most, most / 2, most / TIKOMUCI_SESSION_SLOTS, most / TIKOMUCI_SESSION_SLOTS + 1,
                                   most / TIKOMUCI_SESSION_SLOTS / 2 + 1}) {
        expect(SessionStores::make(size).outcome() == NO_MEMORY && ProfileCache::make(size).outcome() == NO_MEMORY,
               "slots that no memory has");
    }
}

void copies(const ProfileCache &cache) {
    Wire into(5, CANARY);
    const auto length = cache.fetch(9, 0, into);
    expect(length && *length == 3 && into == Wire{0xDE, 0xAD, 0xBE, CANARY, CANARY}, "a fetch that copies");
    std::fill(into.begin(), into.end(), CANARY);
    expect(cache.fetch(9, 0, Output(into).first(2)).outcome() == FULL && into == Wire(5, CANARY), "no room");
    expect(cache.try_fetch(9, 0, Output(into).first(2)).outcome() == FULL && into == Wire(5, CANARY),
           "no room, and no waiting");
    const auto exact = cache.try_fetch(9, 0, Output(into).first(3));
    expect(exact && *exact == 3 && into == Wire{0xDE, 0xAD, 0xBE, CANARY, CANARY}, "room of just the length");
    expect(cache.fetch(9, 1, into).outcome() == ABSENT && cache.fetch(8, 0, into).outcome() == ABSENT &&
               cache.try_fetch(8, 0, {}).outcome() == ABSENT,
           "nothing to copy");
}

void guards(const ProfileCache &cache) {
    {
        Got<HeldProfile> held = cache.fetch(9, 0);
        expect(held && same(held->bytes(), Wire{0xDE, 0xAD, 0xBE}), "a fetch that holds");
        const HeldProfile moved = std::move(*held);
        expect(same(moved.bytes(), Wire{0xDE, 0xAD, 0xBE}) && held->bytes().empty(), "what is held can be moved");
    }
    HeldProfile none;
    expect(none.bytes().empty(), "nothing is held");
    {
        Got<HeldProfile> held = cache.try_fetch(9, 0);
        expect(held && held->bytes().size() == 3, "a fetch that holds, and does not wait");
        none = std::move(*held);
    }
    expect(none.bytes().size() == 3, "what is held is let go of by the last that has it");
    none = HeldProfile();
    expect(cache.fetch(9, 1).outcome() == ABSENT && cache.try_fetch(8, 0).outcome() == ABSENT, "nothing to hold");
}

void profile_cache() {
    Got<ProfileCache> cache = ProfileCache::make(150);
    expect(cache && cache->slot_size() == 150 && cache->holders().empty(), "a cache with a lock");
    const auto slot = cache->put(9, every_table());
    expect(slot && *slot == 0 && lists(cache->holders(), {{0, 9, 142}}), "a put");
    copies(*cache);
    guards(*cache);
    expect(cache->put(9, Wire{1, 2}).outcome() == Outcome{Refusal::Short, Stage::Header} &&
               cache->put(9, longer(every_table(), 151)).outcome() == FULL && cache->fetch(9, 0),
           "a refused put leaves what was there");
    for (std::uint64_t i = 1; i < TIKOMUCI_SESSION_SLOTS; ++i) {
        const auto next = cache->put(FAR - i, file_of({{static_cast<std::uint8_t>(i)}}));
        expect(next && *next == i, "slot after slot");
    }
    expect(cache->put(0, every_table()).outcome() == NO_SLOT && cache->holders().size() == 64, "no slot");
    const auto freed = cache->drop(FAR - 5);
    expect(freed && *freed == 5 && cache->drop(FAR - 5).outcome() == ABSENT && cache->holders().size() == 63, "a drop");
    const auto taken = cache->put(0, every_table());
    expect(taken && *taken == 5 && cache->holders()[5] == Holder{5, 0, 142}, "the freed slot is taken");
}

void no_cache() {
    ProfileCache none;
    Wire into(3, CANARY);
    expect(none.slot_size() == 0 && none.holders().empty() && none.put(1, every_table()).outcome() == NO_MEMORY &&
               none.drop(1).outcome() == NO_MEMORY && none.fetch(1, 0).outcome() == NO_MEMORY &&
               none.fetch(1, 0, into).outcome() == NO_MEMORY && none.try_fetch(1, 0).outcome() == NO_MEMORY &&
               none.try_fetch(1, 0, into).outcome() == NO_MEMORY && into == Wire(3, CANARY),
           "where there is no cache");
    Got<ProfileCache> made = ProfileCache::make(150);
    expect(made && made->put(1, every_table()), "a cache that is moved");
    none = std::move(*made);
    expect(none.fetch(1, 0) && made->fetch(1, 0).outcome() == NO_MEMORY, "and what was moved from");
}

// While one holds a profile others fetch, and a put waits until it is let go of.
void waiting() {
    Got<ProfileCache> cache = ProfileCache::make(150);
    expect(cache && cache->put(9, every_table()), "a cache to wait for");
    std::atomic<bool> done = false;
    std::jthread other;
    {
        const Got<HeldProfile> held = cache->fetch(9, 0);
        bool fetched = false;
        std::jthread([&] { fetched = static_cast<bool>(cache->try_fetch(9, 0)); }).join();
        expect(held && fetched, "two fetches at once");
        other = std::jthread([&] { done = static_cast<bool>(cache->put(9, file_of({{1}}))); });
        std::this_thread::sleep_for(std::chrono::milliseconds(20));
        expect(!done && same(held->bytes(), Wire{0xDE, 0xAD, 0xBE}), "a put waits, and the bytes stay");
    }
    other.join();
    const Got<HeldProfile> held = cache->fetch(9, 0);
    expect(done && held && same(held->bytes(), Wire{1}), "then it is made");
}

// Somebody puts without a pause: a thread that may not wait is told so, sooner or later.
void busy() {
    const Wire large = file_of(std::vector<Wire>(5000, Wire{1, 2, 3}));
    Got<ProfileCache> cache = ProfileCache::make(large.size());
    expect(cache && cache->put(1, large), "a cache that is busy");
    std::atomic<bool> seen = false;
    std::size_t refused = 0;
    std::jthread other([&] {
        while (!seen) {
            refused += cache->put(1, large) ? 0U : 1U;
        }
    });
    const auto deadline = std::chrono::steady_clock::now() + std::chrono::seconds(20);
    bool right = true;
    while (!seen && std::chrono::steady_clock::now() < deadline) {
        const Got<HeldProfile> held = cache->try_fetch(1, 4999);
        right = right && (held ? same(held->bytes(), Wire{1, 2, 3}) : held.outcome() == BUSY);
        seen = !held;
    }
    const bool was_seen = seen.exchange(true);
    other.join();
    expect(was_seen && right && refused == 0, "a fetch that would have to wait is told so");
}

}  // namespace

void profile_cache_tests() {
    listed_rows();
    session_stores();
    sizes_of_slots();
    profile_cache();
    no_cache();
    waiting();
    busy();
}
