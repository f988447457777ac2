// The texts of types, where many of them are shown.
#ifndef TIKOMUCI_COMMAND_TYPES_HPP
#define TIKOMUCI_COMMAND_TYPES_HPP

#include <array>
#include <string_view>

#include "tikomuci_tables.hpp"

namespace command {

/// The texts of a sheet's types, as the library has them. A call judges all that it is lent, and walks over it for each
/// name: lent the whole sheet, many rows would cost their square. So each text is asked for over an excerpt, a sheet
/// that has the rows which the text is made of and no others. None of this asks for memory.
class TypeTexts {
  public:
    explicit TypeTexts(const tikomuci::Sheet &sheet) : sheet_(sheet) {}

    /// The text of a row if it has at most 200 bytes, and else its number behind a `#`. It is there until the next one
    /// is asked for.
    std::string_view text(std::uint64_t row);

  private:
    static constexpr std::size_t LONGEST = 200;
    // What is put of each row has as many bytes as the row has words, or more, and two at least.
    static constexpr std::size_t MOST_WORDS = TIKOMUCI_CONTENTS_WORDS + LONGEST;
    static constexpr std::size_t MOST_ROWS = LONGEST / 2;

    bool gather(std::uint64_t row);
    bool add(std::uint64_t row);
    std::string_view number(std::uint64_t row);

    const tikomuci::Sheet &sheet_;
    std::array<std::uint64_t, MOST_ROWS> rows_{};  // of the excerpt, the last first
    std::size_t count_ = 0;
    std::array<std::uint8_t, 8 * MOST_WORDS> words_{};
    std::array<std::uint8_t, LONGEST> text_{};
};

}  // namespace command

#endif
