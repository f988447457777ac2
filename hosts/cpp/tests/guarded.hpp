// Memory between two pages that nothing may touch: a call that reads or writes outside by one byte ends the program.
#ifndef TIKOMUCI_GUARDED_HPP
#define TIKOMUCI_GUARDED_HPP

#include <sys/mman.h>
#include <unistd.h>

#include <algorithm>
#include <array>
#include <cstdio>
#include <cstdlib>

#include "check.hpp"

enum class Side { Begin, End };

constexpr std::array<Side, 2> SIDES = {Side::Begin, Side::End};

// A span of it stands at its begin or at its end.
class Guarded {
  public:
    explicit Guarded(std::size_t pages) : page_(static_cast<std::size_t>(sysconf(_SC_PAGESIZE))), size_(pages * page_) {
        void *const memory = mmap(nullptr, size_ + 2 * page_, PROT_NONE, MAP_PRIVATE | MAP_ANONYMOUS, -1, 0);
        if (memory == MAP_FAILED) {
            std::perror("mmap");
            std::exit(EXIT_FAILURE);
        }
        memory_ = static_cast<std::uint8_t *>(memory);
        allow(PROT_READ | PROT_WRITE);
    }
    ~Guarded() { munmap(memory_, size_ + 2 * page_); }
    Guarded(const Guarded &) = delete;
    Guarded &operator=(const Guarded &) = delete;

    [[nodiscard]] tikomuci::Output span(std::size_t size, Side side) const {
        const tikomuci::Output inner(memory_ + page_, size_);
        return side == Side::Begin ? inner.first(size) : inner.last(size);
    }

    // These bytes, which may be read and not be written until the next call.
    tikomuci::Bytes lent(const Wire &bytes, Side side) {
        allow(PROT_READ | PROT_WRITE);
        const tikomuci::Output place = span(bytes.size(), side);
        std::copy(bytes.begin(), bytes.end(), place.begin());
        allow(PROT_READ);
        return place;
    }

    // A store of this size, filled with the canary as the memory around it is.
    tikomuci::Output store(std::size_t size, Side side) {
        allow(PROT_READ | PROT_WRITE);
        std::fill_n(memory_ + page_, size_, CANARY);
        return span(size, side);
    }

    // Whether all memory holds the canary but for these bytes at the store's begin.
    [[nodiscard]] bool holds(tikomuci::Output place, const Wire &bytes) const {
        Wire wanted(size_, CANARY);
        std::copy(bytes.begin(), bytes.end(), wanted.begin() + (place.data() - (memory_ + page_)));
        return std::equal(wanted.begin(), wanted.end(), memory_ + page_);
    }

  private:
    void allow(int what) {
        if (mprotect(memory_ + page_, size_, what) != 0) {
            std::perror("mprotect");
            std::exit(EXIT_FAILURE);
        }
    }

    std::size_t page_;
    std::size_t size_;
    std::uint8_t *memory_ = nullptr;
};

#endif
