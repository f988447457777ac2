// A session of sixty tracks on one cache. Each track's instance puts a file with its own noise profile, and what it
// fetches is told apart by its bytes: the program fails if any track gets another's. It also shows what the cache does
// when a track is dropped, replaced or one too many, and what a host is told whose owner table was damaged.

#include <algorithm>
#include <cstdio>
#include <exception>
#include <set>
#include <stdexcept>
#include <string>
#include <vector>

#include "sample.hpp"
#include "tikomuci_cache.hpp"

namespace {

using tikomuci::Bytes;
using tikomuci::Outcome;
using tikomuci::ProfileCache;
using tikomuci::Refusal;

constexpr std::uint64_t TRACKS = 60;
constexpr std::size_t SLOT_BYTES = 256;

// What has to be so.
void check(bool holds, const std::string &what) {
    if (!holds) {
        throw std::runtime_error("not so: " + what);
    }
}

std::string said(Outcome outcome) {
    return std::to_string(number_of(outcome.refusal)) + ", " + std::string(tikomuci::refusal_text(outcome.refusal));
}

void show(std::uint64_t track, const char *what, const std::string &answer) {
    std::printf("  track %2u %-29s %s\n", static_cast<unsigned>(track), what, answer.c_str());
}

// The noise profile of a track, which no other track or take has.
File noise(std::uint64_t track, int take) {
    const auto level = static_cast<float>(track);
    return profile({level, level / 2, level / 4, static_cast<float>(take)});
}

// The profile baked into a file, as its constant 0.
File baked(std::uint64_t track, int take = 1) {
    tikomuci::Builder tables({13, 4, 0});
    const std::uint64_t levels = tables.tile(tables.scalar(tikomuci::TypeTag::F32), {4});
    const std::uint64_t name = tables.string("profile of track " + std::to_string(track));
    tables.global({name, levels, tables.constant(noise(track, take)), 16, 1, true});
    const auto file = tables.file();
    must(file.outcome());
    return *file;
}

// The profile that a track hears, copied out of the cache.
File heard(const ProfileCache &cache, std::uint64_t track) {
    File bytes(SLOT_BYTES);
    const auto length = cache.fetch(track, 0, bytes);
    must(length.outcome());
    bytes.resize(*length);
    return bytes;
}

// The tracks come as they come: every seventh of them, round and round.
void put_all(ProfileCache &cache) {
    for (std::uint64_t i = 1; i <= TRACKS; ++i) {
        const std::uint64_t track = 7 * i % (TRACKS + 1);
        must(cache.put(track, baked(track)).outcome());
    }
}

// The slot that a track holds; there is one.
std::uint64_t slot_of(const ProfileCache &cache, std::uint64_t track) {
    const tikomuci::Holders holders = cache.holders();
    const auto *const found = std::find_if(holders.begin(), holders.end(),
                                           [&](const tikomuci::Holder &holder) { return holder.instance == track; });
    check(found != holders.end(), "track " + std::to_string(track) + " holds a slot");
    return found->slot;
}

// Each track hears its own profile, and no two hear the same.
void fetch_all(const ProfileCache &cache) {
    std::set<File> different;
    for (std::uint64_t track = 1; track <= TRACKS; ++track) {
        const File bytes = heard(cache, track);
        check(bytes == noise(track, 1), "track " + std::to_string(track) + " hears its own profile");
        different.insert(bytes);
    }
    check(different.size() == TRACKS, "no two tracks hear the same");
    std::printf("  %zu tracks fetch their profiles: each is the track's own, and no two are the same\n",
                different.size());
}

// Eight slots to a line, each with its track.
void show_slots(const ProfileCache &cache) {
    std::printf("\nWho holds which slot\n");
    std::vector<std::string> tracks(TIKOMUCI_SESSION_SLOTS, "-");
    for (const tikomuci::Holder &holder : cache.holders()) {
        tracks[holder.slot] = std::to_string(holder.instance);
    }
    for (std::size_t slot = 0; slot < tracks.size(); ++slot) {
        if (slot % 8 == 0) {
            std::printf("  slots %2zu to %2zu: track", slot, slot + 7);
        }
        std::printf(" %3s%s", tracks[slot].c_str(), slot % 8 == 7 ? "\n" : "");
    }
}

void change(ProfileCache &cache) {
    const std::uint64_t first = slot_of(cache, 7);
    const std::uint64_t kept = slot_of(cache, 12);
    must(cache.drop(7).outcome());
    const auto dropped = cache.fetch(7, 0);
    check(dropped.outcome().refusal == Refusal::Absent, "a dropped track has no profile");
    show(7, "is dropped, and fetches:", said(dropped.outcome()));

    const auto slot = cache.put(12, baked(12, 2));
    check(slot && *slot == kept && heard(cache, 12) == noise(12, 2), "a replaced profile is heard");
    show(12, "puts another profile:", "in its slot, " + std::to_string(kept) + ", and that is what it hears");

    const File file = baked(20, 2);
    const Outcome refused = cache.put(20, Bytes(file).first(60)).outcome();
    check(refused.refusal == Refusal::Short && heard(cache, 20) == noise(20, 1), "a refused put changes nothing");
    show(20, "puts a file that is cut:", said(refused));

    const auto freed = cache.put(61, baked(61));
    check(freed && *freed == first && heard(cache, 61) == noise(61, 1), "the freed slot is taken");
    show(61, "is new:", "in slot " + std::to_string(first) + ", which track 7 had");

    const Outcome nothing = cache.fetch(99, 0).outcome();
    check(nothing.refusal == Refusal::Absent, "who put nothing fetches nothing");
    show(99, "put nothing, and fetches:", said(nothing));
}

void fill(ProfileCache &cache) {
    for (std::uint64_t track = 62; track <= 65; ++track) {
        must(cache.put(track, baked(track)).outcome());
    }
    const Outcome refused = cache.put(66, baked(66)).outcome();
    check(refused.refusal == Refusal::NoSlot && cache.holders().size() == TIKOMUCI_SESSION_SLOTS, "64 slots");
    show(66, "is one too many:", said(refused));
    check(heard(cache, 1) == noise(1, 1) && heard(cache, 65) == noise(65, 1), "the others hear their own");
}

// A thread that may not wait holds the profile where it is, under the lock, and asks for no memory.
void hold(const ProfileCache &cache) {
    const auto held = cache.try_fetch(33, 0);
    check(held && std::equal(held->bytes().begin(), held->bytes().end(), noise(33, 1).begin()), "held bytes");
    show(33, "does not wait:", std::to_string(held->bytes().size()) + " bytes, where they are");
}

// A host with stores of its own, and a lock if it needs one. Something else of it writes over the owner table.
void damage() {
    File slots(TIKOMUCI_SESSION_SLOTS * SLOT_BYTES);
    File owners(TIKOMUCI_SESSION_SLOTS * TIKOMUCI_OWNER_BYTES);
    must(tikomuci::session_put(slots, owners, 1, baked(1)).outcome());
    must(tikomuci::session_put(slots, owners, 2, baked(2)).outcome());
    must(tikomuci::patch_u64(owners, TIKOMUCI_OWNER_BYTES + 8, 1));  // slot 1 is said to be track 1's too
    const Outcome fetched = tikomuci::session_fetch(slots, owners, 1, 0).outcome();
    check(fetched.refusal == Refusal::Sheet, "one track in two slots is refused");
    std::printf("\nAn owner table in which two slots are of one track\n");
    show(1, "fetches:", said(fetched));
    const Outcome dropped = tikomuci::session_drop(slots, owners, 2).outcome();
    check(dropped.refusal == Refusal::Sheet, "and so is everybody, until the table is as it was");
    show(2, "drops:", said(dropped));
    must(tikomuci::patch_u64(owners, TIKOMUCI_OWNER_BYTES + 8, 2));
    const auto again = tikomuci::session_fetch(slots, owners, 2, 0);
    check(again && std::equal(again->begin(), again->end(), noise(2, 1).begin()), "a table that was put right");
    show(2, "fetches when it is put right:", "its own profile");
}

}  // namespace

int main() try {
    auto cache = ProfileCache::make(SLOT_BYTES);
    must(cache.outcome());
    std::printf("A session of sixty tracks on one cache, of %d slots with %zu bytes each\n", TIKOMUCI_SESSION_SLOTS,
                cache->slot_size());
    put_all(*cache);
    fetch_all(*cache);
    show_slots(*cache);
    std::printf("\nWhat tracks are told\n");
    change(*cache);
    hold(*cache);
    fill(*cache);
    damage();
    return 0;
} catch (const std::exception &error) {
    std::fprintf(stderr, "session: %s\n", error.what());
    return 1;
}
