// What a fuzz target asks of the text that the command puts out. Nothing here is the command's.
#ifndef TIKOMUCI_FUZZ_LINES_HPP
#define TIKOMUCI_FUZZ_LINES_HPP

#include <array>
#include <cstdint>
#include <string_view>

namespace fuzz {

/// Judges one object of JSON by RFC 8259, but that numbers are whole.
class JsonChecker {
  public:
    explicit JsonChecker(std::string_view text) : rest_(text) {}

    /// Whether the text is one object and the end of its line.
    bool line() { return !rest_.empty() && rest_.front() == '{' && value(0) && rest_ == "\n"; }

  private:
    static constexpr int DEEPEST = 8;

    bool take(char letter) {
        if (rest_.empty() || rest_.front() != letter) {
            return false;
        }
        rest_.remove_prefix(1);
        return true;
    }

    bool take(std::string_view word) {
        if (!rest_.starts_with(word)) {
            return false;
        }
        rest_.remove_prefix(word.size());
        return true;
    }

    bool value(int depth) {
        if (depth > DEEPEST || rest_.empty()) {
            return false;
        }
        switch (rest_.front()) {
            case '{':
                return list('{', '}', [&] { return string() && take(':') && value(depth + 1); });
            case '[':
                return list('[', ']', [&] { return value(depth + 1); });
            case '"':
                return string();
            default:
                return take("true") || take("false") || take("null") || number();
        }
    }

    template <typename Item>
    bool list(char first, char last, Item item) {
        if (!take(first)) {
            return false;
        }
        if (take(last)) {
            return true;
        }
        do {
            if (!item()) {
                return false;
            }
        } while (take(','));
        return take(last);
    }

    bool number() {
        take('-');
        if (take('0')) {
            return true;
        }
        const std::size_t size = rest_.find_first_not_of("0123456789");
        rest_.remove_prefix(size == std::string_view::npos ? rest_.size() : size);
        return size != 0;
    }

    bool string() {
        if (!take('"')) {
            return false;
        }
        while (!take('"')) {
            if (rest_.empty() || static_cast<unsigned char>(rest_.front()) < 0x20) {
                return false;
            }
            if (!take('\\')) {
                rest_.remove_prefix(1);
            } else if (!escape()) {
                return false;
            }
        }
        return true;
    }

    bool escape() {
        if (take('u')) {
            const std::uint32_t first = unit();
            const bool pair = first >= 0xD800 && first <= 0xDBFF;
            return pair ? take("\\u") && is_low(unit()) : first <= 0xFFFF && !is_low(first);
        }
        const bool known =
            !rest_.empty() && std::string_view("\"\\/bfnrt").find(rest_.front()) != std::string_view::npos;
        rest_.remove_prefix(known ? 1 : 0);
        return known;
    }

    static bool is_low(std::uint32_t unit) { return unit >= 0xDC00 && unit <= 0xDFFF; }

    /// Four digits; more than sixteen bits if they are not there.
    std::uint32_t unit() {
        std::uint32_t number = 0;
        for (int i = 0; i < 4; ++i) {
            const std::size_t digit =
                rest_.empty() ? std::string_view::npos : std::string_view("0123456789abcdef").find(rest_.front());
            if (digit == std::string_view::npos) {
                return 0x10000;
            }
            number = number << 4U | static_cast<std::uint32_t>(digit);
            rest_.remove_prefix(1);
        }
        return number;
    }

    std::string_view rest_;
};

/// Takes a character of UTF-8 from the front of a text; nothing sensible, and false, if none stands there.
inline bool take_character(std::string_view &text, std::uint32_t &code) {
    constexpr std::array<std::uint32_t, 4> SMALLEST = {0, 0x80, 0x800, 0x10000};
    const auto lead = static_cast<unsigned char>(text.front());
    const std::size_t more = lead < 0x80 ? 0 : lead < 0xE0 ? 1 : lead < 0xF0 ? 2 : 3;
    if (text.size() <= more || (lead >= 0x80 && lead < 0xC0) || lead >= 0xF8) {
        return false;
    }
    code = more == 0 ? lead : lead & (0x3FU >> more);
    for (const char letter : text.substr(1, more)) {
        const auto byte = static_cast<unsigned char>(letter);
        if (byte < 0x80 || byte >= 0xC0) {
            return false;
        }
        code = code << 6U | (byte & 0x3FU);
    }
    text.remove_prefix(more + 1);
    return code >= SMALLEST[more] && code <= 0x10FFFF && (code < 0xD800 || code > 0xDFFF);
}

/// Whether a character steers a terminal, ends its line or changes the direction of writing.
inline bool is_hostile(std::uint32_t code) {
    return (code < 0x20 && code != '\n') || (code >= 0x7F && code < 0xA0) || code == 0x61C || code == 0x200E ||
           code == 0x200F || (code >= 0x2028 && code <= 0x202E) || (code >= 0x2066 && code <= 0x2069);
}

/// Whether a text is UTF-8 that does nothing but stand there.
inline bool is_clean(std::string_view text) {
    while (!text.empty()) {
        std::uint32_t code = 0;
        if (!take_character(text, code) || is_hostile(code)) {
            return false;
        }
    }
    return true;
}

}  // namespace fuzz

#endif
