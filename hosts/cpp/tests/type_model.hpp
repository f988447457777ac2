// A second maker of the texts of types, over typed rows: the call is compared with it. It knows nothing of words.
#ifndef TIKOMUCI_TYPE_MODEL_HPP
#define TIKOMUCI_TYPE_MODEL_HPP

#include <cstdint>
#include <limits>
#include <optional>
#include <string>
#include <string_view>
#include <variant>

#include "tikomuci_tables.hpp"

namespace type_model {

// Puts pieces of a text, and rows, as long as there is room: the text may be far longer.
class Maker {
  public:
    Maker(const tikomuci::Sheet &sheet, std::size_t most) : sheet_(sheet), most_(most) {}

    [[nodiscard]] std::optional<std::string> text() const { return fits() ? std::optional(text_) : std::nullopt; }

    Maker &row(std::uint64_t number) {
        const auto type = fits() ? sheet_.type(number) : std::nullopt;
        if (type) {
            std::visit([&](const auto &kind) { put(number, type->tag, kind); }, type->kind);
        }
        return *this;
    }

  private:
    static constexpr std::int64_t DYNAMIC = std::numeric_limits<std::int64_t>::min();

    [[nodiscard]] bool fits() const { return text_.size() <= most_; }

    Maker &put(std::string_view piece) {
        text_ += fits() ? piece : "";
        return *this;
    }

    // A row that an earlier one cannot name is not known yet.
    Maker &name(std::uint64_t of, std::uint64_t number) { return number < of ? row(number) : put("?"); }

    template <typename List, typename Item>
    Maker &joined(const List &list, std::string_view between, Item item) {
        bool first = true;
        for (const auto value : list) {
            put(first ? "" : between);
            item(value);
            first = false;
        }
        return *this;
    }

    template <typename List>
    Maker &numbers(const List &list, std::string_view between) {
        return joined(list, between, [this](std::int64_t value) { put(std::to_string(value)); });
    }

    Maker &dimensions(const tikomuci::I64s &list, std::string_view between) {
        return joined(list, between,
                      [this](std::int64_t value) { put(value == DYNAMIC ? "?" : std::to_string(value)); });
    }

    Maker &names(std::uint64_t of, const tikomuci::Words &list) {
        return joined(list, ", ", [&](std::uint64_t number) { name(of, number); });
    }

    Maker &last(std::string_view label, const std::optional<std::uint64_t> &value) {
        return value ? put(label).put(std::to_string(*value)) : *this;
    }

    void put(std::uint64_t, tikomuci::TypeTag tag, const tikomuci::Scalar &) { put(tikomuci::type_name(tag)); }
    void put(std::uint64_t n, tikomuci::TypeTag, const tikomuci::Pointer &t) {
        put("ptr<").name(n, t.element).last(", ptr_attr=", t.attribute).put(">");
    }
    void put(std::uint64_t n, tikomuci::TypeTag, const tikomuci::Tile &t) {
        put("tile<").numbers(t.shape, "x").put(t.shape.empty() ? "" : "x").name(n, t.element).put(">");
    }
    void put(std::uint64_t n, tikomuci::TypeTag, const tikomuci::TensorView &t) {
        put("tensor_view<").dimensions(t.shape, "x").put("x").name(n, t.element);
        put(", strides=[").dimensions(t.strides, ",").put("]").last(", ptr_attr=", t.attribute).put(">");
    }
    void put(std::uint64_t n, tikomuci::TypeTag, const tikomuci::PartitionView &t) {
        put("partition_view<tile=(").numbers(t.shape, "x").put("), tv=").name(n, t.view);
        last(", padding=", t.padding).put(">");
    }
    void put(std::uint64_t n, tikomuci::TypeTag, const tikomuci::GatherScatterView &t) {
        put("gather_scatter_view<tile=(").numbers(t.shape, "x").put("), tv=").name(n, t.view);
        put(", sparse_dim=").put(std::to_string(t.sparse)).last(", padding=", t.padding).put(">");
    }
    void put(std::uint64_t n, tikomuci::TypeTag, const tikomuci::StridedView &t) {
        put("strided_view<tile=(").numbers(t.shape, "x").put("), traversal_strides=[").numbers(t.strides, ",");
        put("], tv=").name(n, t.view).put(", dim_map=[").numbers(t.map, ",").put("]");
        last(", padding=", t.padding).put(">");
    }
    void put(std::uint64_t n, tikomuci::TypeTag, const tikomuci::FuncType &t) {
        put("(").names(n, t.inputs).put(") -> (").names(n, t.results).put(")");
    }

    const tikomuci::Sheet &sheet_;
    std::size_t most_;
    std::string text_;
};

// The text of a row that is there, if it has no more bytes than this.
inline std::optional<std::string> text_of(const tikomuci::Sheet &sheet, std::uint64_t row, std::size_t most) {
    return Maker(sheet, most).row(row).text();
}

}  // namespace type_model

#endif
