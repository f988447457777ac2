// A cache by its two stores, the owner table and the buffer.
#ifndef TIKOMUCI_COMMAND_CACHE_HPP
#define TIKOMUCI_COMMAND_CACHE_HPP

#include <string>
#include <vector>

#include "tikomuci.hpp"

namespace command {

/// A slot that is taken, and the file in it.
struct Held {
    std::uint64_t slot = 0;
    std::uint64_t instance = 0;
    std::uint64_t offset = 0;  // of the slot in the buffer
    tikomuci::Bytes file;
};

/// An owner table and a buffer, which may be any bytes. The library judges them; this reads again what they have.
class Cache {
  public:
    Cache(tikomuci::Bytes owners, tikomuci::Bytes buffer);

    /// 16 if the owner table has as many rows, and else 64.
    [[nodiscard]] std::uint64_t slots() const { return slots_; }

    [[nodiscard]] std::uint64_t slot_size() const { return buffer_.size() / slots_; }

    /// Whether the library accepts the two stores, whatever the files are that they hold.
    [[nodiscard]] tikomuci::Outcome outcome() const;

    /// Of stores that are accepted: the slots that are taken, from the lowest on.
    [[nodiscard]] std::vector<Held> held() const;

    /// Of stores that are refused: why, in words.
    [[nodiscard]] std::vector<std::string> faults() const;

  private:
    // A row of the owner table.
    struct Owner {
        bool taken = false;
        std::uint64_t instance = 0;
        std::uint64_t length = 0;
    };

    [[nodiscard]] Owner owner(std::uint64_t slot) const;

    // The lowest taken row of an instance that has one.
    [[nodiscard]] std::uint64_t first_row_of(std::uint64_t instance) const;

    tikomuci::Bytes owners_;
    tikomuci::Bytes buffer_;
    std::uint64_t slots_;
};

}  // namespace command

#endif
