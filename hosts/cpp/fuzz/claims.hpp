// What the fuzz targets claim of the calls, whatever these are given. A claim that does not hold says so and ends the
// program; the fuzzer then keeps the input.
#ifndef TIKOMUCI_FUZZ_CLAIMS_HPP
#define TIKOMUCI_FUZZ_CLAIMS_HPP

#include <algorithm>
#include <cstdio>
#include <cstdlib>
#include <optional>

#include "../tests/check.hpp"
#include "tikomuci_tables.hpp"

namespace fuzz {

using tikomuci::Bytes;
using tikomuci::Outcome;
using tikomuci::Output;
using tikomuci::Size;

inline void claim(bool holds, const char *what) {
    if (!holds) {
        std::fprintf(stderr, "FAILED: %s\n", what);
        std::abort();
    }
}

inline bool same(Bytes a, Bytes b) { return std::equal(a.begin(), a.end(), b.begin(), b.end()); }

// A store to lend, not aligned and between guards. All of its memory holds one byte until a call changes it.
class Store {
  public:
    explicit Store(std::size_t size, std::uint8_t fill = CANARY)
        : size_(size), fill_(fill), memory_(GUARD + size + GUARD, fill) {}

    [[nodiscard]] Output lent() { return Output(memory_).subspan(GUARD, size_); }
    [[nodiscard]] Wire first(std::size_t size) const {
        const Bytes taken = Bytes(memory_).subspan(GUARD, size);
        return Wire(taken.begin(), taken.end());
    }

    // Whether nothing but the first `size` bytes of the store may have been changed.
    [[nodiscard]] bool kept_but(std::size_t size) const {
        const Bytes all(memory_);
        return filled(all.first(GUARD)) && filled(all.subspan(GUARD + size));
    }

  private:
    static constexpr std::size_t GUARD = 13;

    [[nodiscard]] bool filled(Bytes part) const {
        return std::all_of(part.begin(), part.end(), [this](std::uint8_t byte) { return byte == fill_; });
    }

    std::size_t size_;
    std::uint8_t fill_;
    Wire memory_;
};

struct Stores {
    Wire sheet;
    Wire pool;
};

// What a sheet says its pool's length is; nothing if it is too short to say so.
std::optional<std::uint64_t> pool_length(Bytes sheet);

// An input as a sheet and its pool: a byte of flags, two bytes that say how long the sheet is, the sheet and the pool.
// If bit 0 of the flags is set, the pool gets the length that the sheet says: else few sheets that the fuzzer makes
// would have their pool.
Stores handed(Bytes input);

// A file that measure accepted with this size: read agrees, fills stores of that size and no byte more, and refuses
// stores that are a word or a byte smaller.
Stores read_whole(Bytes file, Size size);

// A reading that has to be refused like this, and to leave stores of these sizes as they are.
void read_refused(Bytes file, std::size_t sheet_size, std::size_t pool_size, Outcome wanted);

// The image of a sheet and its pool, which image accepted with this size: write agrees, fills an output of that size
// and no byte more, and refuses one that is a byte smaller.
Wire write_whole(Bytes sheet, Bytes pool, std::uint64_t size);

// A writing that has to be refused like this, and to leave an output of this size as it is.
void write_refused(Bytes sheet, Bytes pool, std::size_t size, Outcome wanted);

// What is written reads back as the same sheet and pool, and these are written as the same bytes again.
void written_and_back(Bytes sheet, Bytes pool);

}  // namespace fuzz

#endif
