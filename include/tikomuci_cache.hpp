// tikomuci_cache.hpp: the shared profile cache, for C++17 and later: a file for each instance, and its constants.
//
// A ProfileCache has 64 slots in stores of its own, and a lock, so that the instances of a session share one on any
// number of threads. SessionStores are the same without the lock, for a host that has one of its own. `cache_put`,
// `session_put` and the others are the calls over stores that a host lends. Nothing here throws, and only `make`
// allocates.
//
// What it costs: a put judges the file and copies it, and a fetch judges the kept file, each time. Every call judges
// all rows of the owner table first.
#ifndef TIKOMUCI_CACHE_HPP
#define TIKOMUCI_CACHE_HPP

#include <algorithm>
#include <array>
#include <cassert>
#include <cstddef>
#include <cstdint>
#include <limits>
#include <memory>
#include <mutex>
#include <new>
#include <shared_mutex>
#include <utility>

#include "tikomuci.hpp"

namespace tikomuci {
inline namespace TIKOMUCI_SPANS {

namespace detail {

using PutCall = tikomuci_answer (*)(std::uint8_t *, std::size_t, std::uint8_t *, std::size_t, std::uint64_t,
                                    const std::uint8_t *, std::size_t);
using FetchCall = tikomuci_answer (*)(const std::uint8_t *, std::size_t, const std::uint8_t *, std::size_t,
                                      std::uint64_t, std::uint64_t);
using DropCall = tikomuci_answer (*)(std::uint8_t *, std::size_t, std::uint8_t *, std::size_t, std::uint64_t);

inline Got<std::uint64_t> put_by(PutCall call, Output cache, Output owners, std::uint64_t instance,
                                 Bytes file) noexcept {
    if (overlap(cache, owners) || overlap(cache, file) || overlap(owners, file)) {
        return OVERLAPPING;
    }
    return first_of(call(cache.data(), cache.size(), owners.data(), owners.size(), instance, file.data(), file.size()));
}

inline Got<Bytes> fetch_by(FetchCall call, Bytes cache, Bytes owners, std::uint64_t instance,
                           std::uint64_t index) noexcept {
    if (overlap(cache, owners)) {
        return OVERLAPPING;
    }
    const tikomuci_answer answer = call(cache.data(), cache.size(), owners.data(), owners.size(), instance, index);
    if (answer.refusal != 0) {
        return outcome_of(answer);
    }
    return cache.subspan(answer.first, answer.second);
}

inline Got<std::uint64_t> drop_by(DropCall call, Output cache, Output owners, std::uint64_t instance) noexcept {
    if (overlap(cache, owners)) {
        return OVERLAPPING;
    }
    return first_of(call(cache.data(), cache.size(), owners.data(), owners.size(), instance));
}

}  // namespace detail

/// Puts a file for an instance into a lent buffer of 16 slots, and answers the slot: the one that the instance holds
/// already, or else the lowest free one. Sheet if buffer and owner table are no cache, a refusal of the file, Full if
/// it is larger than a slot, NoSlot if all are taken by others, Overlap if two of the spans overlap.
[[nodiscard]] inline Got<std::uint64_t> cache_put(Store cache, Store owners, std::uint64_t instance,
                                                  Input file) noexcept {
    return detail::put_by(tikomuci_cache_put, cache.bytes(), owners.bytes(), instance, file.bytes());
}

/// The constant with this number of the file that an instance put, as a part of the buffer: it stays what it is until
/// that instance puts or drops. Sheet, Absent if there is none, a refusal of a file that was damaged, Overlap.
[[nodiscard]] inline Got<Bytes> cache_fetch(Lent cache, Input owners, std::uint64_t instance,
                                            std::uint64_t index) noexcept {
    return detail::fetch_by(tikomuci_cache_fetch, cache.bytes(), owners.bytes(), instance, index);
}

/// Clears and frees the slot of an instance, and answers it. Sheet, Absent if the instance holds none, Overlap.
[[nodiscard]] inline Got<std::uint64_t> cache_drop(Store cache, Store owners, std::uint64_t instance) noexcept {
    return detail::drop_by(tikomuci_cache_drop, cache.bytes(), owners.bytes(), instance);
}

/// The same three for the 64 slots of a session.
[[nodiscard]] inline Got<std::uint64_t> session_put(Store cache, Store owners, std::uint64_t instance,
                                                    Input file) noexcept {
    return detail::put_by(tikomuci_session_put, cache.bytes(), owners.bytes(), instance, file.bytes());
}

[[nodiscard]] inline Got<Bytes> session_fetch(Lent cache, Input owners, std::uint64_t instance,
                                              std::uint64_t index) noexcept {
    return detail::fetch_by(tikomuci_session_fetch, cache.bytes(), owners.bytes(), instance, index);
}

[[nodiscard]] inline Got<std::uint64_t> session_drop(Store cache, Store owners, std::uint64_t instance) noexcept {
    return detail::drop_by(tikomuci_session_drop, cache.bytes(), owners.bytes(), instance);
}

/// Who holds a slot, and how long its file is.
struct Holder {
    std::uint64_t slot = 0;
    std::uint64_t instance = 0;
    std::uint64_t length = 0;

    friend constexpr bool operator==(const Holder &a, const Holder &b) noexcept {
        return a.slot == b.slot && a.instance == b.instance && a.length == b.length;
    }
    friend constexpr bool operator!=(const Holder &a, const Holder &b) noexcept { return !(a == b); }
};

/// Who held which slot when it was asked, in the order of the slots and by value.
class Holders {
  public:
    [[nodiscard]] std::size_t size() const noexcept { return size_; }
    [[nodiscard]] bool empty() const noexcept { return size_ == 0; }
    [[nodiscard]] const Holder *begin() const noexcept { return all_.data(); }
    [[nodiscard]] const Holder *end() const noexcept { return all_.data() + size_; }
    [[nodiscard]] const Holder &operator[](std::size_t i) const noexcept {
        assert(i < size_);
        return all_[i];
    }

  private:
    friend Holders holders(Input owners) noexcept;

    std::array<Holder, TIKOMUCI_SESSION_SLOTS> all_{};
    std::size_t size_ = 0;
};

/// The taken rows of an owner table, as they stand there: whether it is well-formed is judged by the other calls. What
/// is behind its last whole row, or behind the 64th, is not looked at.
[[nodiscard]] inline Holders holders(Input owners) noexcept {
    Holders found;
    Reader rows(owners.bytes());
    for (std::uint64_t slot = 0; slot < found.all_.size(); ++slot) {
        const Got<std::uint64_t> mark = rows.le_u64();
        const Got<std::uint64_t> instance = rows.le_u64();
        const Got<std::uint64_t> length = rows.le_u64();
        if (!mark || !instance || !length) {
            break;
        }
        if (*mark != 0) {
            found.all_[found.size_++] = {slot, *instance, *length};
        }
    }
    return found;
}

/// The 64 slots of a session and their owner table, without a lock: a put or a drop has to be alone with them, and
/// fetches may run at once.
class SessionStores {
  public:
    /// Slots of no bytes, as those are that were moved from: no file fits.
    SessionStores() = default;
    SessionStores(const SessionStores &) = delete;
    SessionStores &operator=(const SessionStores &) = delete;
    SessionStores(SessionStores &&other) noexcept { *this = std::move(other); }
    SessionStores &operator=(SessionStores &&other) noexcept {
        buffer_ = std::exchange(other.buffer_, nullptr);
        owners_ = std::exchange(other.owners_, {});
        slot_size_ = std::exchange(other.slot_size_, 0);
        return *this;
    }
    ~SessionStores() = default;

    /// An empty cache with slots of this many bytes, all of them 0; Memory if there is none for it.
    [[nodiscard]] static Got<SessionStores> make(std::size_t slot_size) noexcept {
        constexpr std::size_t most = std::numeric_limits<std::ptrdiff_t>::max();
        SessionStores made;
        if (slot_size <= most / TIKOMUCI_SESSION_SLOTS) {
            made.buffer_.reset(new (std::nothrow) std::uint8_t[TIKOMUCI_SESSION_SLOTS * slot_size]());
        }
        if (!made.buffer_) {
            return Outcome{Refusal::Memory, Stage::Call};
        }
        made.slot_size_ = slot_size;
        return made;
    }

    Got<std::uint64_t> put(std::uint64_t instance, Input file) noexcept {
        return session_put(store(), owners_, instance, file);
    }
    Got<std::uint64_t> drop(std::uint64_t instance) noexcept { return session_drop(store(), owners_, instance); }

    /// A part of the buffer, which stays what it is until that instance puts or drops.
    Got<Bytes> fetch(std::uint64_t instance, std::uint64_t index) const &noexcept {
        return session_fetch(buffer(), owners_, instance, index);
    }
    Got<Bytes> fetch(std::uint64_t, std::uint64_t) const &&TIKOMUCI_DELETED("keep the stores in a variable");

    [[nodiscard]] Holders holders() const noexcept { return tikomuci::holders(owners_); }
    [[nodiscard]] std::size_t slot_size() const noexcept { return slot_size_; }

    /// The stores as they are: the buffer and the owner table.
    [[nodiscard]] Bytes buffer() const &noexcept { return {buffer_.get(), TIKOMUCI_SESSION_SLOTS * slot_size_}; }
    [[nodiscard]] Bytes owners() const &noexcept { return owners_; }
    Bytes buffer() const &&TIKOMUCI_DELETED("keep the stores in a variable: the bytes are a part of them");
    Bytes owners() const &&TIKOMUCI_DELETED("keep the stores in a variable: the bytes are a part of them");

  private:
    [[nodiscard]] Output store() noexcept { return {buffer_.get(), TIKOMUCI_SESSION_SLOTS * slot_size_}; }

    std::unique_ptr<std::uint8_t[]> buffer_;
    std::array<std::uint8_t, TIKOMUCI_SESSION_SLOTS * TIKOMUCI_OWNER_BYTES> owners_{};
    std::size_t slot_size_ = 0;
};

/// The bytes of a constant in a ProfileCache, and the lock under which they stay what they are. As long as it is held,
/// others fetch, and a put or a drop waits. The thread that got it has to let go of it, before the cache is gone, and
/// before it calls the cache again: it might wait for itself forever. One without a name is held until the end of its
/// statement, so that `cache.fetch(1, 0) && cache.drop(1)` is such a wait.
class [[nodiscard]] HeldProfile {
  public:
    /// Nothing is held, as by one that was moved from.
    HeldProfile() = default;
    HeldProfile(const HeldProfile &) = delete;
    HeldProfile &operator=(const HeldProfile &) = delete;
    HeldProfile(HeldProfile &&other) noexcept { *this = std::move(other); }
    HeldProfile &operator=(HeldProfile &&other) noexcept {
        lock_ = std::move(other.lock_);
        bytes_ = std::exchange(other.bytes_, {});
        return *this;
    }
    ~HeldProfile() = default;

    [[nodiscard]] Bytes bytes() const &noexcept { return bytes_; }
    Bytes bytes() const &&TIKOMUCI_DELETED("keep the profile in a variable: its bytes stay as long as it is held");

  private:
    friend class ProfileCache;
    using Lock = std::shared_lock<std::shared_mutex>;

    HeldProfile(Lock lock, Bytes bytes) noexcept : lock_(std::move(lock)), bytes_(bytes) {}

    Lock lock_;
    Bytes bytes_;
};

/// A cache that threads share: 64 slots, and a lock that fetches share and that a put or a drop has alone. Refusals are
/// those of the calls over spans but for Sheet, since nobody else reaches the stores. Who comes first of those that
/// wait is for the system to say: fetches without a pause may keep a put waiting.
class ProfileCache {
  public:
    /// No cache, as one is that was moved from: each call is refused with Memory.
    ProfileCache() = default;

    /// An empty cache with slots of this many bytes; Memory if there is none for it.
    [[nodiscard]] static Got<ProfileCache> make(std::size_t slot_size) noexcept {
        Got<SessionStores> stores = SessionStores::make(slot_size);
        if (!stores) {
            return stores.outcome();
        }
        ProfileCache made;
        made.shared_.reset(new (std::nothrow) Shared);
        if (!made.shared_) {
            return NO_MEMORY;
        }
        made.shared_->stores = std::move(*stores);
        return made;
    }

    /// Puts a file for an instance, and answers the slot; a refused put changes nothing.
    Got<std::uint64_t> put(std::uint64_t instance, Input file) noexcept {
        return alone([&](SessionStores &stores) { return stores.put(instance, file); });
    }

    /// Clears and frees the slot of an instance, and answers it.
    Got<std::uint64_t> drop(std::uint64_t instance) noexcept {
        return alone([&](SessionStores &stores) { return stores.drop(instance); });
    }

    /// Copies the constant with this number of the file that an instance put, and answers its length; Full if `into` is
    /// smaller, and then nothing is copied.
    Got<std::uint64_t> fetch(std::uint64_t instance, std::uint64_t index, Store into) const noexcept {
        return copied(hold(instance, index), into.bytes());
    }

    /// That constant where it is, and the lock.
    Got<HeldProfile> fetch(std::uint64_t instance, std::uint64_t index) const &noexcept {
        return hold(instance, index);
    }
    Got<HeldProfile> fetch(std::uint64_t, std::uint64_t) const &&TIKOMUCI_DELETED("keep the cache in a variable");

    /// The same two for a thread that may not wait, such as one that fills audio buffers: Busy if the lock is not free
    /// at once, because somebody puts or drops. They judge the file and copy the bytes, and do not wait for anybody.
    Got<std::uint64_t> try_fetch(std::uint64_t instance, std::uint64_t index, Store into) const noexcept {
        return copied(hold(instance, index, std::try_to_lock), into.bytes());
    }
    Got<HeldProfile> try_fetch(std::uint64_t instance, std::uint64_t index) const &noexcept {
        return hold(instance, index, std::try_to_lock);
    }
    Got<HeldProfile> try_fetch(std::uint64_t, std::uint64_t) const &&TIKOMUCI_DELETED("keep the cache in a variable");

    /// Who holds which slot now; of no cache, nobody.
    [[nodiscard]] Holders holders() const noexcept {
        if (!shared_) {
            return {};
        }
        const HeldProfile::Lock lock(shared_->mutex);
        return shared_->stores.holders();
    }

    [[nodiscard]] std::size_t slot_size() const noexcept { return shared_ ? shared_->stores.slot_size() : 0; }

  private:
    static constexpr Outcome NO_MEMORY{Refusal::Memory, Stage::Call};

    struct Shared {
        std::shared_mutex mutex;
        SessionStores stores;
    };

    template <typename Change>
    Got<std::uint64_t> alone(Change change) noexcept {
        if (!shared_) {
            return NO_MEMORY;
        }
        const std::lock_guard<std::shared_mutex> lock(shared_->mutex);
        return change(shared_->stores);
    }

    template <typename... How>
    [[nodiscard]] Got<HeldProfile> hold(std::uint64_t instance, std::uint64_t index, How... how) const noexcept {
        if (!shared_) {
            return NO_MEMORY;
        }
        HeldProfile::Lock lock(shared_->mutex, how...);
        if (!lock) {
            return Outcome{Refusal::Busy, Stage::Call};
        }
        const Got<Bytes> bytes = shared_->stores.fetch(instance, index);
        if (!bytes) {
            return bytes.outcome();
        }
        return HeldProfile(std::move(lock), *bytes);
    }

    [[nodiscard]] static Got<std::uint64_t> copied(const Got<HeldProfile> &held, Output into) noexcept {
        if (!held) {
            return held.outcome();
        }
        const Bytes bytes = held->bytes();
        if (into.size() < bytes.size()) {
            return Outcome{Refusal::Full, Stage::Call};
        }
        std::copy(bytes.begin(), bytes.end(), into.begin());
        return std::uint64_t{bytes.size()};
    }

    std::unique_ptr<Shared> shared_;
};

}  // namespace TIKOMUCI_SPANS
}  // namespace tikomuci

#endif
