// The stores of a cache that the command makes itself.
#ifndef TIKOMUCI_COMMAND_STORES_HPP
#define TIKOMUCI_COMMAND_STORES_HPP

#include <array>
#include <cstdlib>
#include <memory>

#include "cache.hpp"

namespace command {

/// The stores of a cache of 64 slots. A slot is as large as the largest file that passed, as long as the buffer is not
/// over the limit of a file: `cache` reads no more.
class Stores {
  public:
    Stores() : Stores(0) {}

    /// Puts a file for an instance, and answers what the library does. Throws std::bad_alloc.
    tikomuci_answer put(std::uint64_t instance, tikomuci::Bytes file);

    [[nodiscard]] tikomuci::Bytes owners() const { return owners_; }
    [[nodiscard]] tikomuci::Bytes buffer() const { return {buffer_.get(), size_}; }
    [[nodiscard]] Cache cache() const { return {owners(), buffer()}; }

  private:
    explicit Stores(std::size_t slot_size);

    tikomuci_answer put_once(std::uint64_t instance, tikomuci::Bytes file);
    [[nodiscard]] Stores widened(std::size_t slot_size) const;

    struct Free {
        void operator()(std::uint8_t *memory) const { std::free(memory); }
    };

    std::array<std::uint8_t, TIKOMUCI_SESSION_SLOTS * TIKOMUCI_OWNER_BYTES> owners_{};
    std::size_t size_;
    // Slots that are never taken cost no memory: what is allocated as zeros is not touched before it is written.
    std::unique_ptr<std::uint8_t, Free> buffer_;
};

}  // namespace command

#endif
