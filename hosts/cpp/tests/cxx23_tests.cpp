// The headers beside std::expected, which a library may have from C++23 on, and beside what a host has in its place.

#include <memory>
#include <type_traits>
#include <utility>
#include <variant>

#include "check.hpp"
#include "tikomuci_tables.hpp"
#if defined(__cpp_lib_expected)
#include <expected>
#endif

namespace {

using tikomuci::Bytes;
using tikomuci::Outcome;
using tikomuci::Size;
using tikomuci::Tables;

// What is asked of a host's own.
template <typename Value, typename Error>
class Expected {
  public:
    using value_type = Value;
    using error_type = Error;
    struct unexpected_type {
        explicit unexpected_type(Error why) : error(why) {}
        Error error;
    };

    explicit Expected(Value value) : held_(std::in_place_index<0>, std::move(value)) {}
    explicit Expected(unexpected_type why) : held_(std::in_place_index<1>, why.error) {}

    [[nodiscard]] bool has_value() const { return held_.index() == 0; }
    [[nodiscard]] const Value &value() const { return std::get<0>(held_); }
    [[nodiscard]] const Error &error() const { return std::get<1>(held_); }

  private:
    std::variant<Value, Error> held_;
};

template <template <typename, typename> typename Of>
void converted(const std::string &what) {
    const Wire file = whole_case();
    const auto named = tikomuci::measure(file);
    const Of<Size, Outcome> size = named;
    expect(size.has_value() && size.value() == Size{21, 3}, what + ": a value");
    const Of<Bytes, Outcome> view = tikomuci::constant(file, 0);
    expect(!view.has_value() && view.error() == ABSENT, what + ": a refusal");
    const Of<std::uint64_t, Outcome> number = tikomuci::Reader(file, 8).varint();
    expect(number.has_value() && number.value() == 13, what + ": a number");
    const Of<Tables, Outcome> tables = tikomuci::read(file);
    expect(tables.has_value() && tables.value().sheet().strings().size() == 2, what + ": what can only be moved");
    const Of<tikomuci::TypeText, Outcome> text = tikomuci::type_text(file, 0);
    expect(!text.has_value() && text.error() == SHEET, what + ": a refusal of what can only be moved");
    static_assert(!std::is_convertible_v<const tikomuci::Got<Bytes> &, Of<Size, Outcome>>);
}

}  // namespace

void cxx23_tests() {
    converted<Expected>("a host's own");
#if defined(__cpp_lib_expected)
    converted<std::expected>("std::expected");
#endif
}
