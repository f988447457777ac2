#include "json.hpp"

#include "escape.hpp"

namespace command {

namespace {

using tikomuci::Bytes;

bool is_utf8(Bytes bytes) {
    while (!bytes.empty()) {
        const Character character = first_character(bytes);
        if (!character.code) {
            return false;
        }
        bytes = bytes.subspan(character.size);
    }
    return true;
}

// \u and the four digits of sixteen bits.
void put_unit(Sink &out, std::uint32_t unit) {
    const std::array<std::uint8_t, 2> bytes = {static_cast<std::uint8_t>(unit >> 8U), static_cast<std::uint8_t>(unit)};
    out << "\\u" << Hex{bytes};
}

// As UTF-16 has it: a character above FFFF is two surrogates.
void put_escape(Sink &out, std::uint32_t code) {
    if (code < 0x10000) {
        put_unit(out, code);
    } else {
        put_unit(out, 0xD800 + ((code - 0x10000) >> 10U));
        put_unit(out, 0xDC00 + (code & 0x3FFU));
    }
}

void put_character(Sink &out, Bytes bytes, Character character) {
    if (!character.plain()) {
        put_escape(out, *character.code);
        return;
    }
    if (bytes[0] == '"' || bytes[0] == '\\') {
        out << '\\';
    }
    out << text_of_bytes(bytes.first(character.size));
}

}  // namespace

Json &Json::open(char bracket) {
    separate();
    out_ << bracket;
    fresh_ = true;
    return *this;
}

Json &Json::close(char bracket) {
    out_ << bracket;
    fresh_ = false;
    return *this;
}

Json &Json::key(std::string_view name) {
    separate();
    out_ << '"' << name << "\":";
    fresh_ = true;
    return *this;
}

Json &Json::text(Bytes bytes) {
    if (!is_utf8(bytes)) {
        return open('{').key("hex").hex(bytes).close('}');
    }
    separate();
    out_ << '"';
    while (!bytes.empty()) {
        const Character character = first_character(bytes);
        put_character(out_, bytes, character);
        bytes = bytes.subspan(character.size);
    }
    out_ << '"';
    return *this;
}

Json &Json::text(std::string_view text_) { return text(bytes_of_text(text_)); }

Json &Json::hex(Bytes bytes) {
    separate();
    out_ << '"' << Hex{bytes} << '"';
    return *this;
}

Json &Json::null() {
    separate();
    out_ << "null";
    return *this;
}

Json &Json::truth(bool value) {
    separate();
    out_ << (value ? "true" : "false");
    return *this;
}

void Json::separate() {
    if (!fresh_) {
        out_ << ',';
    }
    fresh_ = false;
}

}  // namespace command
