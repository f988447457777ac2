// The cache a second time, as plain C++ has it: a map from instances to vectors. Of the library it only uses what
// judges a single file, so that what the calls answer and leave in their stores is said by somebody else.
#ifndef TIKOMUCI_CACHE_MODEL_HPP
#define TIKOMUCI_CACHE_MODEL_HPP

#include <algorithm>
#include <array>
#include <map>
#include <optional>
#include <vector>

#include "check.hpp"
#include "tikomuci_builder.hpp"
#include "tikomuci_cache.hpp"

namespace model {

using tikomuci::Bytes;
using tikomuci::Output;

// The three calls for a number of slots.
struct Calls {
    std::size_t slots;
    tikomuci::detail::PutCall put;
    tikomuci::detail::FetchCall fetch;
    tikomuci::detail::DropCall drop;

    [[nodiscard]] constexpr std::size_t owners_size() const { return slots * TIKOMUCI_OWNER_BYTES; }
};

inline constexpr std::array<Calls, 2> BOTH = {
    Calls{TIKOMUCI_CACHE_SLOTS, tikomuci_cache_put, tikomuci_cache_fetch, tikomuci_cache_drop},
    Calls{TIKOMUCI_SESSION_SLOTS, tikomuci_session_put, tikomuci_session_fetch, tikomuci_session_drop}};

inline Wire copy(Bytes bytes) { return Wire(bytes.begin(), bytes.end()); }

inline bool same(Bytes a, Bytes b) { return std::equal(a.begin(), a.end(), b.begin(), b.end()); }

inline bool same(const tikomuci_answer &a, const tikomuci_answer &b) {
    return a.refusal == b.refusal && a.stage == b.stage && a.first == b.first && a.second == b.second;
}

inline tikomuci_answer refused(std::uint64_t refusal) { return {refusal, TIKOMUCI_STAGE_CALL, 0, 0}; }

// A file with these constants and nothing else.
inline Wire file_of(const std::vector<Wire> &constants) {
    tikomuci::Builder tables({13, 4, 0});
    for (const Wire &constant : constants) {
        tables.constant(constant);
    }
    return tables.file().value_or(Wire());
}

// A file of this size: what stands behind its end marker is not read.
inline Wire longer(Wire file, std::size_t size) {
    file.resize(size, CANARY);
    return file;
}

class Cache {
  public:
    Cache(std::size_t slots, std::size_t slot_size) : slots_(slots), slot_size_(slot_size) {}

    // What a buffer and an owner table stand for; nothing if they are no cache.
    static std::optional<Cache> of(std::size_t slots, Bytes buffer, Bytes owners) {
        if (buffer.size() % slots != 0 || owners.size() != slots * TIKOMUCI_OWNER_BYTES) {
            return std::nullopt;
        }
        Cache cache(slots, buffer.size() / slots);
        for (std::size_t slot = 0; slot < slots; ++slot) {
            const std::uint64_t instance = word(owners, 3 * slot + 1);
            const std::uint64_t length = word(owners, 3 * slot + 2);
            if (word(owners, 3 * slot) == 0) {
                continue;
            }
            if (length > cache.slot_size_ || cache.kept_.count(instance) != 0) {
                return std::nullopt;
            }
            cache.kept_[instance] = {slot, copy(buffer.subspan(slot * cache.slot_size_, length))};
        }
        return cache;
    }

    tikomuci_answer put(std::uint64_t instance, Bytes file) {
        const tikomuci_answer judged = tikomuci_measure(file.data(), file.size());
        if (judged.refusal != 0) {
            return judged;
        }
        if (file.size() > slot_size_) {
            return refused(TIKOMUCI_REFUSAL_FULL);
        }
        const auto held = kept_.find(instance);
        const std::size_t slot = held == kept_.end() ? lowest_free() : held->second.slot;
        if (slot == slots_) {
            return refused(TIKOMUCI_REFUSAL_NO_SLOT);
        }
        kept_[instance] = {slot, copy(file)};
        return {0, 0, slot, 0};
    }

    [[nodiscard]] tikomuci_answer fetch(std::uint64_t instance, std::uint64_t index) const {
        const auto held = kept_.find(instance);
        if (held == kept_.end()) {
            return refused(TIKOMUCI_REFUSAL_ABSENT);
        }
        const Wire &file = held->second.file;
        tikomuci_answer answer = tikomuci_constant(file.data(), file.size(), index);
        if (answer.refusal == 0) {
            answer.first += held->second.slot * slot_size_;
        }
        return answer;
    }

    tikomuci_answer drop(std::uint64_t instance) {
        const auto held = kept_.find(instance);
        if (held == kept_.end()) {
            return refused(TIKOMUCI_REFUSAL_ABSENT);
        }
        const std::size_t slot = held->second.slot;
        kept_.erase(held);
        return {0, 0, slot, 0};
    }

    // The file that an instance holds; of one that holds none, no bytes.
    [[nodiscard]] Wire file(std::uint64_t instance) const {
        const auto held = kept_.find(instance);
        return held == kept_.end() ? Wire() : held->second.file;
    }

    [[nodiscard]] std::size_t size() const { return kept_.size(); }
    [[nodiscard]] std::size_t slot_size() const { return slot_size_; }

  private:
    struct Kept {
        std::size_t slot = 0;
        Wire file;
    };

    static std::uint64_t word(Bytes owners, std::size_t number) {
        std::uint64_t value = 0;
        for (unsigned i = 0; i < 8; ++i) {
            value |= std::uint64_t{owners[8 * number + i]} << 8 * i;
        }
        return value;
    }

    [[nodiscard]] std::size_t lowest_free() const {
        std::vector<bool> taken(slots_, false);
        for (const auto &[instance, kept] : kept_) {
            taken[kept.slot] = true;
        }
        return static_cast<std::size_t>(std::find(taken.begin(), taken.end(), false) - taken.begin());
    }

    std::size_t slots_;
    std::size_t slot_size_;
    std::map<std::uint64_t, Kept> kept_;
};

// Lent stores and the cache that they stand for, side by side: each call is made of both, and all bytes of the stores
// are compared behind it.
class Tried {
  public:
    using Judge = void (*)(bool holds, const char *what);

    Tried(const Calls &calls, Output buffer, Output owners, Judge judge)
        : calls_(calls), buffer_(buffer), owners_(owners), judge_(judge) {
        changed();
    }

    // Somebody else has changed the stores, or they are new.
    void changed() {
        wanted_buffer_ = copy(buffer_);
        wanted_owners_ = copy(owners_);
        cache_ = Cache::of(calls_.slots, buffer_, owners_);
    }

    tikomuci_answer put(std::uint64_t instance, Bytes file) {
        const tikomuci_answer wanted = cache_ ? cache_->put(instance, file) : refused(TIKOMUCI_REFUSAL_SHEET);
        const tikomuci_answer got = calls_.put(buffer_.data(), buffer_.size(), owners_.data(), owners_.size(), instance,
                                               file.data(), file.size());
        if (wanted.refusal == 0) {
            becomes(wanted.first, copy(file), little_endian({1, instance, file.size()}));
        }
        compared(got, wanted, "a put answers what the model answers");
        return got;
    }

    tikomuci_answer fetch(std::uint64_t instance, std::uint64_t index) {
        const tikomuci_answer wanted = cache_ ? cache_->fetch(instance, index) : refused(TIKOMUCI_REFUSAL_SHEET);
        const tikomuci_answer got =
            calls_.fetch(buffer_.data(), buffer_.size(), owners_.data(), owners_.size(), instance, index);
        compared(got, wanted, "a fetch answers what the model answers");
        if (cache_ && got.refusal == 0) {
            const Wire file = cache_->file(instance);
            const auto constant = tikomuci::constant(file, index);
            judge_(constant && same(buffer_.subspan(got.first, got.second), *constant),
                   "a fetch has the bytes of what the instance put last");
        }
        return got;
    }

    tikomuci_answer drop(std::uint64_t instance) {
        const tikomuci_answer wanted = cache_ ? cache_->drop(instance) : refused(TIKOMUCI_REFUSAL_SHEET);
        const tikomuci_answer got =
            calls_.drop(buffer_.data(), buffer_.size(), owners_.data(), owners_.size(), instance);
        if (wanted.refusal == 0) {
            becomes(wanted.first, {}, {});
        }
        compared(got, wanted, "a drop answers what the model answers");
        return got;
    }

    [[nodiscard]] const std::optional<Cache> &cache() const { return cache_; }

  private:
    // A slot begins with a file, and a row with its words; all bytes behind them are 0.
    void becomes(std::size_t slot, Wire file, Wire row) {
        file.resize(buffer_.size() / calls_.slots, 0);
        row.resize(TIKOMUCI_OWNER_BYTES, 0);
        std::copy(file.begin(), file.end(), wanted_buffer_.begin() + static_cast<std::ptrdiff_t>(slot * file.size()));
        std::copy(row.begin(), row.end(), wanted_owners_.begin() + static_cast<std::ptrdiff_t>(slot * row.size()));
    }

    void compared(const tikomuci_answer &got, const tikomuci_answer &wanted, const char *what) const {
        judge_(same(got, wanted), what);
        judge_(same(buffer_, wanted_buffer_), "no other byte of the buffer changes");
        judge_(same(owners_, wanted_owners_), "no other byte of the owner table changes");
    }

    const Calls &calls_;
    Output buffer_;
    Output owners_;
    Judge judge_;
    Wire wanted_buffer_;
    Wire wanted_owners_;
    std::optional<Cache> cache_;
};

}  // namespace model

#endif
