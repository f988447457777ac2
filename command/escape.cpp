#include "escape.hpp"

#include <algorithm>
#include <array>

namespace command {

namespace {

using tikomuci::Bytes;

struct Range {
    char32_t first;
    char32_t last;
};

// Control characters, the separators of lines and paragraphs, the marks of annotations, and all that Unicode calls
// default ignorable: what is not seen, among it the controls of the direction of writing.
constexpr std::array<Range, 19> NOT_PLAIN = {{
    {0x0, 0x1F},      {0x7F, 0x9F},       {0xAD, 0xAD},       {0x34F, 0x34F},     {0x61C, 0x61C},
    {0x115F, 0x1160}, {0x17B4, 0x17B5},   {0x180B, 0x180F},   {0x200B, 0x200F},   {0x2028, 0x202E},
    {0x2060, 0x206F}, {0x3164, 0x3164},   {0xFE00, 0xFE0F},   {0xFEFF, 0xFEFF},   {0xFFA0, 0xFFA0},
    {0xFFF0, 0xFFFB}, {0x1BCA0, 0x1BCA3}, {0x1D173, 0x1D17A}, {0xE0000, 0xE0FFF},
}};

// How many bytes the character has that begins with this one; 0 if none does.
std::size_t size_of_lead(std::uint8_t lead) {
    if (lead < 0x80) {
        return 1;
    }
    if (lead < 0xC2 || lead > 0xF4) {
        return 0;
    }
    return lead < 0xE0 ? 2 : lead < 0xF0 ? 3 : 4;
}

// The smallest code of a character with so many bytes: a smaller one has a shorter form.
constexpr std::array<char32_t, 5> SMALLEST = {0, 0, 0x80, 0x800, 0x10000};

bool is_code(char32_t code, std::size_t size) {
    return code >= SMALLEST[size] && code <= 0x10FFFF && (code < 0xD800 || code > 0xDFFF);
}

// A byte that is not plain, or a character of several.
void put_escape(Sink &out, std::uint8_t byte, Character character) {
    if (character.size == 1) {
        out << "\\x" << Hex{Bytes(&byte, 1)};
        return;
    }
    std::array<char, 8> digits{};
    const auto end =
        std::to_chars(digits.data(), digits.data() + digits.size(), std::uint32_t{*character.code}, 16).ptr;
    out << "\\u{" << std::string_view(digits.data(), static_cast<std::size_t>(end - digits.data())) << '}';
}

void put(Sink &out, Bytes bytes, std::string_view behind_backslash) {
    while (!bytes.empty()) {
        const Character character = first_character(bytes);
        if (!character.plain()) {
            put_escape(out, bytes[0], character);
        } else {
            if (behind_backslash.find(static_cast<char>(bytes[0])) != std::string_view::npos) {
                out << '\\';
            }
            out << text_of_bytes(bytes.first(character.size));
        }
        bytes = bytes.subspan(character.size);
    }
}

}  // namespace

bool Character::plain() const {
    return code && std::none_of(NOT_PLAIN.begin(), NOT_PLAIN.end(),
                                [this](Range range) { return range.first <= *code && *code <= range.last; });
}

Character first_character(Bytes bytes) {
    const std::size_t size = size_of_lead(bytes[0]);
    if (size == 0 || bytes.size() < size) {
        return {};
    }
    // Of the first byte of several, the bits that say how many there are do not count.
    char32_t code = size == 1 ? bytes[0] : bytes[0] & (0x7FU >> size);
    for (const std::uint8_t byte : bytes.subspan(1, size - 1)) {
        if ((byte & 0xC0U) != 0x80) {
            return {};
        }
        code = code << 6U | (byte & 0x3FU);
    }
    return is_code(code, size) ? Character{size, code} : Character{};
}

Bytes first_characters(Bytes bytes, std::size_t longest) {
    std::size_t size = 0;
    while (size < bytes.size()) {
        const std::size_t next = size + first_character(bytes.subspan(size)).size;
        if (next > longest) {
            break;
        }
        size = next;
    }
    return bytes.first(size);
}

Sink &operator<<(Sink &out, Escaped name) {
    put(out, name.bytes, "\\");
    return out;
}

Sink &operator<<(Sink &out, Quoted string) {
    out << '"';
    put(out, string.bytes, "\"\\");
    return out << '"';
}

Sink &operator<<(Sink &out, Hex hex) {
    constexpr std::string_view DIGITS = "0123456789abcdef";
    for (const std::uint8_t byte : hex.bytes) {
        out << DIGITS[byte >> 4U] << DIGITS[byte & 15U];
    }
    return out;
}

}  // namespace command
