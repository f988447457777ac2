#include "cache.hpp"

namespace command {

namespace {

using std::to_string;
using tikomuci::Bytes;

constexpr std::size_t CACHE_OWNERS = TIKOMUCI_CACHE_SLOTS * TIKOMUCI_OWNER_BYTES;
constexpr std::size_t SESSION_OWNERS = TIKOMUCI_SESSION_SLOTS * TIKOMUCI_OWNER_BYTES;

}  // namespace

Cache::Cache(Bytes owners, Bytes buffer)
    : owners_(owners),
      buffer_(buffer),
      slots_(owners.size() == CACHE_OWNERS ? TIKOMUCI_CACHE_SLOTS : TIKOMUCI_SESSION_SLOTS) {}

// Every call judges the stores first, and gives this number for them only.
tikomuci::Outcome Cache::outcome() const {
    const auto fetch = slots_ == TIKOMUCI_CACHE_SLOTS ? tikomuci_cache_fetch : tikomuci_session_fetch;
    const auto outcome =
        tikomuci::outcome_of(fetch(buffer_.data(), buffer_.size(), owners_.data(), owners_.size(), 0, 0));
    return outcome.refusal == tikomuci::Refusal::Sheet ? outcome : tikomuci::Outcome{};
}

std::vector<Held> Cache::held() const {
    std::vector<Held> held;
    for (std::uint64_t slot = 0; slot < slots_; ++slot) {
        const Owner row = owner(slot);
        if (row.taken) {
            const std::uint64_t offset = slot * slot_size();
            held.push_back({slot, row.instance, offset, buffer_.subspan(offset, row.length)});
        }
    }
    return held;
}

std::vector<std::string> Cache::faults() const {
    if (owners_.size() != slots_ * TIKOMUCI_OWNER_BYTES) {
        return {"the owner table has a length of " + to_string(owners_.size()) + ", and not of " +
                to_string(CACHE_OWNERS) + " or " + to_string(SESSION_OWNERS)};
    }
    std::vector<std::string> faults;
    const bool whole = buffer_.size() % slots_ == 0;
    if (!whole) {
        faults.push_back("the buffer has a length of " + to_string(buffer_.size()) + ", which is no multiple of " +
                         to_string(slots_));
    }
    for (std::uint64_t slot = 0; slot < slots_; ++slot) {
        const Owner row = owner(slot);
        if (whole && row.taken && row.length > slot_size()) {
            faults.push_back("row " + to_string(slot) + " has a length of " + to_string(row.length) +
                             ", and a slot one of " + to_string(slot_size()));
        }
        if (row.taken && first_row_of(row.instance) != slot) {
            faults.push_back("rows " + to_string(first_row_of(row.instance)) + " and " + to_string(slot) +
                             " have one instance, " + to_string(row.instance));
        }
    }
    return faults;
}

Cache::Owner Cache::owner(std::uint64_t slot) const {
    tikomuci::Reader row(owners_, slot * TIKOMUCI_OWNER_BYTES);
    const auto mark = row.le_u64();
    const auto instance = row.le_u64();
    const auto length = row.le_u64();
    return {mark.value_or(0) != 0, instance.value_or(0), length.value_or(0)};
}

std::uint64_t Cache::first_row_of(std::uint64_t instance) const {
    std::uint64_t slot = 0;
    while (!owner(slot).taken || owner(slot).instance != instance) {
        ++slot;
    }
    return slot;
}

}  // namespace command
