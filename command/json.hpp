// The syntax of JSON, in one line.
#ifndef TIKOMUCI_COMMAND_JSON_HPP
#define TIKOMUCI_COMMAND_JSON_HPP

#include <concepts>
#include <optional>
#include <string_view>

#include "sink.hpp"
#include "tikomuci.hpp"

namespace command {

/// Puts values one after the other; a comma is put where one is needed.
class Json {
  public:
    explicit Json(Sink &out) : out_(out) {}

    Json &open(char bracket);
    Json &close(char bracket);
    Json &key(std::string_view name);

    /// A string. One that is no UTF-8 is an object with its bytes, {"hex":".."}.
    Json &text(tikomuci::Bytes bytes);
    Json &text(std::string_view text);
    Json &hex(tikomuci::Bytes bytes);
    Json &null();
    Json &truth(bool value);

    template <std::integral Number>
    Json &number(Number value) {
        separate();
        out_ << value;
        return *this;
    }

    template <typename Value>
    Json &number(const std::optional<Value> &value) {
        return value ? number(*value) : null();
    }

    template <typename List>
    Json &numbers(const List &list) {
        open('[');
        for (const auto value : list) {
            number(value);
        }
        return close(']');
    }

  private:
    void separate();

    Sink &out_;
    bool fresh_ = true;
};

}  // namespace command

#endif
