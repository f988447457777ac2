// Names of files and strings of files are any bytes. What of them could steer a terminal, reorder its line or hide in
// it is put as an escape.
#ifndef TIKOMUCI_COMMAND_ESCAPE_HPP
#define TIKOMUCI_COMMAND_ESCAPE_HPP

#include <optional>
#include <string_view>

#include "sink.hpp"
#include "tikomuci.hpp"

namespace command {

/// The character that some bytes begin with.
struct Character {
    std::size_t size = 1;
    std::optional<char32_t> code;  // nothing if the first byte begins no character of UTF-8

    /// Whether it is put as it is.
    [[nodiscard]] bool plain() const;
};

/// Of one byte or more. UTF-8 has the shortest form of each character only, no surrogates, and nothing above 10FFFF.
Character first_character(tikomuci::Bytes bytes);

/// As many whole characters, or bytes that are none, as fit.
tikomuci::Bytes first_characters(tikomuci::Bytes bytes, std::size_t longest);

inline tikomuci::Bytes bytes_of_text(std::string_view text) {
    return {reinterpret_cast<const std::uint8_t *>(text.data()), text.size()};
}

inline std::string_view text_of_bytes(tikomuci::Bytes bytes) {
    return {reinterpret_cast<const char *>(bytes.data()), bytes.size()};
}

/// A name in a line for people: `\x1b` for a byte and `\u{202e}` for a character that is not plain, `\\` for `\`.
struct Escaped {
    tikomuci::Bytes bytes;
};

/// The same between quotes, with `\"` for a quote.
struct Quoted {
    tikomuci::Bytes bytes;
};

/// Two digits for each byte.
struct Hex {
    tikomuci::Bytes bytes;
};

inline Escaped escaped(std::string_view name) { return {bytes_of_text(name)}; }

Sink &operator<<(Sink &out, Escaped name);
Sink &operator<<(Sink &out, Quoted string);
Sink &operator<<(Sink &out, Hex hex);

}  // namespace command

#endif
