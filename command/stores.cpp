#include "stores.hpp"

#include <cassert>
#include <new>
#include <utility>

namespace command {

namespace {

constexpr std::size_t LARGEST_SLOT = TIKOMUCI_MAX_FILE_BYTES / TIKOMUCI_SESSION_SLOTS;

}  // namespace

Stores::Stores(std::size_t slot_size)
    : size_(TIKOMUCI_SESSION_SLOTS * slot_size), buffer_(static_cast<std::uint8_t *>(std::calloc(size_, 1))) {
    if (size_ != 0 && !buffer_) {
        throw std::bad_alloc();
    }
}

tikomuci_answer Stores::put(std::uint64_t instance, tikomuci::Bytes file) {
    const tikomuci_answer answer = put_once(instance, file);
    if (answer.refusal != TIKOMUCI_REFUSAL_FULL || file.size() > LARGEST_SLOT) {
        return answer;
    }
    *this = widened(file.size());
    return put_once(instance, file);
}

tikomuci_answer Stores::put_once(std::uint64_t instance, tikomuci::Bytes file) {
    return tikomuci_session_put(buffer_.get(), size_, owners_.data(), owners_.size(), instance, file.data(),
                                file.size());
}

// Nothing is ever dropped, so that the lowest slots are the ones that are taken: each file gets its slot again.
Stores Stores::widened(std::size_t slot_size) const {
    Stores wider(slot_size);
    for (const Held &held : cache().held()) {
        [[maybe_unused]] const tikomuci_answer again = wider.put_once(held.instance, held.file);
        assert(again.refusal == 0 && again.first == held.slot);
    }
    return wider;
}

}  // namespace command
