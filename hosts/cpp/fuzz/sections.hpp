// The header and the sections of a file, read a second time: by docs/FORMAT.md alone, with no code of the library or of
// its headers, so that what the calls say of a section is judged by somebody else.
#ifndef TIKOMUCI_FUZZ_SECTIONS_HPP
#define TIKOMUCI_FUZZ_SECTIONS_HPP

#include <array>
#include <cstddef>
#include <cstdint>
#include <optional>

namespace sections {

enum Refused : std::uint64_t { NOT = 0, SHORT = 2, OVERLONG = 3, MAGIC = 4, PADDING = 5 };

struct Payload {
    std::uint64_t offset = 0;
    std::uint64_t length = 0;
};

// The payload that counts for each id, or a refusal and its stage.
struct Walked {
    Refused refused = NOT;
    std::uint64_t stage = 0;
    std::array<std::optional<Payload>, 8> payloads;
};

class Walk {
  public:
    Walk(const std::uint8_t *file, std::size_t size) : file_(file), size_(size) {}

    Walked whole() {
        header();
        if (refused_ != NOT) {
            return {refused_, 1, {}};
        }
        while (section()) {
        }
        return refused_ == NOT ? Walked{NOT, 0, payloads_} : Walked{refused_, 2, {}};
    }

  private:
    // The next byte; 0 behind the end, which is then refused.
    unsigned byte() {
        if (at_ == size_) {
            refuse(SHORT);
            return 0;
        }
        return file_[at_++];
    }

    void refuse(Refused why) { refused_ = refused_ == NOT ? why : refused_; }

    void header() {
        constexpr std::array<unsigned, 8> magic = {0x7F, 'T', 'i', 'l', 'e', 'I', 'R', 0};
        bool same = true;
        for (const unsigned wanted : magic) {
            same = byte() == wanted && same;
        }
        if (!same) {
            refuse(MAGIC);
        }
        for (int version = 0; version < 4; ++version) {
            byte();
        }
    }

    std::uint64_t varint() {
        std::uint64_t number = 0;
        for (unsigned place = 0; place < 10; ++place) {
            const unsigned next = byte();
            number |= std::uint64_t{next & 0x7F} << 7 * place;
            if (next < 0x80) {
                return number;
            }
        }
        refuse(OVERLONG);
        return 0;
    }

    void padding(std::uint64_t alignment) {
        while (refused_ == NOT && alignment > 1 && at_ % alignment != 0) {
            if (byte() != 0xCB) {
                refuse(PADDING);
            }
        }
    }

    // Whether there may be another section.
    bool section() {
        const unsigned head = byte();
        const unsigned id = head & 0x7F;
        if (refused_ != NOT || id == 0) {
            return false;
        }
        const std::uint64_t length = varint();
        if (refused_ == NOT && head >= 0x80) {
            padding(varint());
        }
        if (length > size_ - at_) {
            refuse(SHORT);
        }
        if (refused_ != NOT) {
            return false;
        }
        if (id < payloads_.size()) {
            payloads_[id] = Payload{at_, length};
        }
        at_ += length;
        return true;
    }

    const std::uint8_t *file_;
    std::size_t size_;
    std::size_t at_ = 0;
    Refused refused_ = NOT;
    std::array<std::optional<Payload>, 8> payloads_;
};

}  // namespace sections

#endif
