// session_threads CALLS FILE..: sixty threads share one cache, and each makes this many calls. It puts, fetches and
// drops files of the genuine writer for instances of its own, and keeps beside the cache what it put last, in a plain
// map. The constants of each put are filled with bytes of its own, so that those of another thread, or of an earlier
// put, would be seen. Run under sanitizers, it shows that the lock is where it has to be.

#include <algorithm>
#include <cstdio>
#include <cstdlib>
#include <fstream>
#include <iterator>
#include <latch>
#include <map>
#include <random>
#include <thread>
#include <vector>

#include "check.hpp"
#include "tikomuci_cache.hpp"

namespace {

using tikomuci::Bytes;
using tikomuci::Got;
using tikomuci::Outcome;
using tikomuci::Output;
using tikomuci::ProfileCache;
using tikomuci::Refusal;
using tikomuci::Stage;

constexpr std::uint64_t THREADS = 60;
constexpr std::size_t SLOT = 2048;
constexpr Outcome NO_SLOT{Refusal::NoSlot, Stage::Call};
constexpr Outcome BUSY{Refusal::Busy, Stage::Call};

bool same(Bytes a, Bytes b) { return std::equal(a.begin(), a.end(), b.begin(), b.end()); }

// A file, where its constants stand, and what a put of it is answered where there is a slot.
struct Genuine {
    Wire file;
    std::vector<Bytes> constants;
    Outcome outcome;
};

Genuine load(const char *path) {
    std::ifstream in(path, std::ios::binary);
    Genuine got{Wire(std::istreambuf_iterator<char>(in), {}), {}, {}};
    const bool fits = got.file.size() <= SLOT;
    got.outcome = tikomuci::measure(got.file).outcome();
    for (std::uint64_t i = 0; const auto constant = tikomuci::constant(got.file, i); ++i) {
        got.constants.push_back(*constant);
    }
    if (got.outcome && !fits) {
        got.outcome = FULL;
    }
    return got;
}

// What the calls of a thread came to.
struct Counts {
    std::size_t puts = 0;
    std::size_t fetches = 0;
    std::size_t bytes = 0;
    std::size_t drops = 0;
    std::size_t refused = 0;
    std::size_t no_slot = 0;
    std::size_t busy = 0;
    std::size_t wrong = 0;

    void add(const Counts &other) {
        puts += other.puts;
        fetches += other.fetches;
        bytes += other.bytes;
        drops += other.drops;
        refused += other.refused;
        no_slot += other.no_slot;
        busy += other.busy;
        wrong += other.wrong;
    }
};

// A thread's own two instances. There are more instances than slots.
class Track {
  public:
    Track(ProfileCache &cache, const std::vector<Genuine> &files, std::uint64_t number)
        : cache_(cache), files_(files), number_(number), random_(number) {}

    void run(std::size_t calls) {
        for (std::size_t call = 0; call < calls; ++call) {
            const std::uint64_t instance = random_() % 8 == 0 ? FAR - number_ : number_;
            const std::uint64_t kind = random_() % 10;
            if (kind < 4) {
                put(instance);
            } else if (kind < 9) {
                fetch(instance, random_() % 4);
            } else {
                drop(instance);
            }
        }
    }

    [[nodiscard]] const std::map<std::uint64_t, Wire> &kept() const { return kept_; }
    [[nodiscard]] const Counts &counts() const { return counts_; }

  private:
    // A file with bytes of its own in its constants.
    Wire stamped(const Genuine &genuine) {
        Wire file = genuine.file;
        for (const Bytes constant : genuine.constants) {
            const Output place =
                Output(file).subspan(static_cast<std::size_t>(constant.data() - genuine.file.data()), constant.size());
            std::generate(place.begin(), place.end(), [this] { return static_cast<std::uint8_t>(random_()); });
        }
        return file;
    }

    void put(std::uint64_t instance) {
        const Genuine &genuine = files_[random_() % files_.size()];
        const Wire file = stamped(genuine);
        const auto slot = cache_.put(instance, file);
        if (slot.outcome() == NO_SLOT && genuine.outcome && kept_.count(instance) == 0) {
            ++counts_.no_slot;
            return;
        }
        judge(slot.outcome() == genuine.outcome);
        if (slot) {
            judge(*slot < TIKOMUCI_SESSION_SLOTS);
            kept_[instance] = file;
            ++counts_.puts;
        } else {
            ++counts_.refused;
        }
    }

    // One of the four ways to fetch, whose bytes have to be those of the own last put.
    void fetch(std::uint64_t instance, std::uint64_t index) {
        const auto held = kept_.find(instance);
        const Wire none;
        const Wire &file = held == kept_.end() ? none : held->second;
        const Got<Bytes> wanted = file.empty() ? Got<Bytes>(ABSENT) : tikomuci::constant(file, index);
        switch (random_() % 4) {
            case 0:
                copied(wanted, [&](Output into) { return cache_.fetch(instance, index, into); });
                break;
            case 1:
                copied(wanted, [&](Output into) { return cache_.try_fetch(instance, index, into); });
                break;
            case 2:
                held_is(wanted, cache_.fetch(instance, index));
                break;
            default:
                held_is(wanted, cache_.try_fetch(instance, index));
        }
    }

    template <typename Fetch>
    void copied(const Got<Bytes> &wanted, Fetch fetch) {
        Wire into(SLOT, CANARY);
        const Got<std::uint64_t> length = fetch(into);
        const std::size_t size = length.value_or(0);
        fetched(wanted, length.outcome(), Bytes(into).first(size));
        judge(std::all_of(into.begin() + static_cast<std::ptrdiff_t>(size), into.end(),
                          [](std::uint8_t byte) { return byte == CANARY; }));
    }

    void held_is(const Got<Bytes> &wanted, const Got<tikomuci::HeldProfile> &held) {
        fetched(wanted, held.outcome(), held ? held->bytes() : Bytes());
    }

    void fetched(const Got<Bytes> &wanted, Outcome outcome, Bytes bytes) {
        if (outcome == BUSY) {
            ++counts_.busy;
            return;
        }
        judge(outcome == wanted.outcome() && same(bytes, wanted.value_or(Bytes())));
        ++(outcome ? counts_.fetches : counts_.refused);
        counts_.bytes += bytes.size();
    }

    void drop(std::uint64_t instance) {
        const bool held = kept_.erase(instance) != 0;
        const auto slot = cache_.drop(instance);
        judge(slot.outcome() == (held ? Outcome{} : ABSENT));
        ++(slot ? counts_.drops : counts_.refused);
    }

    void judge(bool right) { counts_.wrong += right ? 0U : 1U; }

    ProfileCache &cache_;
    const std::vector<Genuine> &files_;
    std::uint64_t number_;
    std::mt19937_64 random_;
    std::map<std::uint64_t, Wire> kept_;
    Counts counts_;
};

// Whether those who hold a slot are those who put last, with files of that length.
bool right_holders(const ProfileCache &cache, const std::vector<Track> &tracks) {
    std::map<std::uint64_t, std::uint64_t> lengths;
    for (const Track &track : tracks) {
        for (const auto &[instance, file] : track.kept()) {
            lengths[instance] = file.size();
        }
    }
    const tikomuci::Holders holders = cache.holders();
    return holders.size() == lengths.size() &&
           std::all_of(holders.begin(), holders.end(), [&](const tikomuci::Holder &holder) {
               const auto found = lengths.find(holder.instance);
               return found != lengths.end() && found->second == holder.length;
           });
}

void run_at_once(std::vector<Track> &tracks, std::size_t calls) {
    std::latch start(static_cast<std::ptrdiff_t>(tracks.size()));
    std::vector<std::jthread> threads;
    for (Track &track : tracks) {
        threads.emplace_back([&] {
            start.arrive_and_wait();
            track.run(calls);
        });
    }
}

}  // namespace

int main(int count, char **arguments) {
    const std::size_t calls = count < 2 ? 0 : std::strtoul(arguments[1], nullptr, 10);
    std::vector<Genuine> files;
    std::transform(arguments + std::min(count, 2), arguments + count, std::back_inserter(files), load);
    Got<ProfileCache> cache = ProfileCache::make(SLOT);
    if (calls == 0 || files.empty() || !cache) {
        std::fprintf(stderr, "session_threads: no calls, no files or no memory\n");
        return EXIT_FAILURE;
    }
    std::vector<Track> tracks;
    for (std::uint64_t number = 0; number < THREADS; ++number) {
        tracks.emplace_back(*cache, files, number);
    }
    run_at_once(tracks, calls);
    Counts all;
    for (const Track &track : tracks) {
        all.add(track.counts());
    }
    const bool right = right_holders(*cache, tracks);
    std::printf(
        "%zu threads, %zu calls on one cache: %zu puts, %zu fetches of %zu bytes, %zu drops, %zu refused, %zu "
        "found no slot, %zu did not wait; %zu got what was not theirs, and the slots are %s\n",
        tracks.size(), tracks.size() * calls, all.puts, all.fetches, all.bytes, all.drops, all.refused, all.no_slot,
        all.busy, all.wrong, right ? "whose they should be" : "NOT whose they should be");
    const std::size_t few = calls * THREADS / 50;
    const bool tried = all.puts > few && all.fetches > few && all.drops > few && all.no_slot > few;
    return right && tried && all.wrong == 0 ? EXIT_SUCCESS : EXIT_FAILURE;
}
