// The rows of a sheet as text. The words for debug attributes are those of the dump in decoder.rs, as those for types
// are, which the library has.

#include <array>
#include <utility>

#include "escape.hpp"
#include "sha256.hpp"
#include "text.hpp"
#include "types.hpp"

namespace command::text {

namespace {

using tikomuci::Bytes;
using tikomuci::Sheet;
using tikomuci::Words;

// How much of a string is shown where another row names it.
constexpr std::size_t LONGEST = 64;
// How many bytes of a checksum are shown. JSON has them all.
constexpr std::size_t CHECKSUM = 8;

/// Puts pieces of rows, and what a row says of another.
class Rows {
  public:
    Rows(Sink &out, const Sheet &sheet) : out_(out), sheet_(sheet), texts_(sheet) {}

    [[nodiscard]] const Sheet &sheet() const { return sheet_; }

    template <typename... Pieces>
    Rows &put(const Pieces &...pieces) {
        (out_ << ... << pieces);
        return *this;
    }

    /// A string where another row names it. Many rows may name one string: a long one is cut.
    Rows &string(std::uint64_t i) {
        const auto bytes = sheet_.string(i);
        if (!bytes) {
            return put("<no string ", i, '>');
        }
        return put(Quoted{first_characters(*bytes, LONGEST)}, bytes->size() <= LONGEST ? "" : "..");
    }

    /// A type by its text, or by its number if that is long.
    Rows &type(std::uint64_t i) { return i < sheet_.types().size() ? put(texts_.text(i)) : put("<no type ", i, '>'); }

    template <typename List, typename Item>
    Rows &joined(const List &list, std::string_view between, Item item) {
        bool first = true;
        for (const auto value : list) {
            put(first ? "" : between);
            first = false;
            item(value);
        }
        return *this;
    }

    /// How long a run of bytes is, where it begins if that is known, and its checksum.
    Rows &run(Bytes bytes, std::optional<std::uint64_t> at = std::nullopt) {
        put(Length{bytes.size()});
        if (at) {
            put(" at ", *at);
        }
        const auto sum = sha256(bytes);
        return put(", sha256 ", Hex{Bytes(sum).first(CHECKSUM)}, "..");
    }

  private:
    Sink &out_;
    const Sheet &sheet_;
    TypeTexts texts_;
};

void put_row(Rows &rows, const tikomuci::Global &g) {
    rows.string(g.name).put(" : ").type(g.type).put(" = constant ", g.constant, ", align ", g.alignment);
    if (rows.sheet().version() < tikomuci::Version{13, 3, 0}) {
        return;
    }
    if (g.visibility > 1) {
        rows.put(", visibility ", g.visibility);
    } else {
        rows.put(g.visibility == 0 ? ", public" : ", private");
    }
    rows.put(g.is_constant ? ", constant" : "");
}

void put_row(Rows &rows, const tikomuci::Function &f) {
    rows.put(f.is_kernel() ? "entry " : "func ").string(f.name).put(" : ").type(f.signature);
    rows.put(f.is_private() ? ", private" : ", public", ", location ", f.location, ", body of ").run(f.body);
}

// What the fields of an attribute are: strings, attributes, or plain numbers.
enum class Field { String, Attribute, Number };

struct Label {
    std::string_view name;
    Field field = Field::Number;
};

constexpr std::array<std::array<Label, 6>, 7> LABELS = {{
    {},
    {{{"file", Field::Attribute}}},
    {{{"name", Field::String}, {"dir", Field::String}}},
    {{{"scope", Field::Attribute}, {"file", Field::Attribute}, {"line"}, {"column"}}},
    {{{"scope", Field::Attribute}, {"file", Field::String}, {"line"}, {"column"}}},
    {{{"file", Field::Attribute},
      {"line"},
      {"name", Field::String},
      {"linkage", Field::String},
      {"cu", Field::Attribute},
      {"scope_line"}}},
    {{{"callee", Field::Attribute}, {"caller", Field::Attribute}}},
}};

void put_field(Rows &rows, Field field, std::uint64_t value) {
    if (field == Field::String) {
        rows.string(value);
    } else if (field == Field::Attribute) {
        rows.put("di[", value, ']');
    } else {
        rows.put(value);
    }
}

void put_row(Rows &rows, const tikomuci::Attribute &a) {
    rows.put(tikomuci::debug_name(a.tag));
    for (std::size_t n = 0; n < a.fields.size(); ++n) {
        const Label label = LABELS[number_of(a.tag)][n];
        rows.put(n == 0 ? "(" : ", ", label.name, '=');
        put_field(rows, label.field, a.fields[n]);
    }
    rows.put(a.fields.empty() ? "" : ")");
}

void put_row(Rows &rows, const Words &ids) {
    rows.put('[').joined(ids, ", ", [&](std::uint64_t id) { rows.put(id); }).put(']');
}

// A table that has rows: its name, and a line for each row.
template <typename Table, typename Put>
void put_table(Rows &rows, std::string_view name, const Table &table, Put put, std::uint64_t number = 0) {
    if (table.empty()) {
        return;
    }
    rows.put('\n', name, " (", table.size(), ")\n");
    for (const auto &row : table) {
        rows.put("  [", number++, "] ");
        put(row);
        rows.put('\n');
    }
}

}  // namespace

void put_rows(Sink &out, const Sheet &sheet, std::uint64_t constants_at) {
    Rows rows(out, sheet);
    const auto put = [&](const auto &row) { put_row(rows, row); };
    if (const auto producer = sheet.producer()) {
        rows.put("\nproduced by ").string(*producer).put('\n');
    }
    put_table(rows, "strings", sheet.strings(), [&](Bytes string) { rows.put(Quoted{string}); });
    put_table(rows, "types", sheet.types(), [&, type = std::uint64_t{0}](const auto &) mutable { rows.type(type++); });
    put_table(rows, "constants", sheet.constants(),
              [&](Bytes constant) { rows.run(constant, std::exchange(constants_at, constants_at + constant.size())); });
    put_table(rows, "globals", sheet.globals(), put);
    put_table(rows, "functions", sheet.functions(), put);
    // Attributes are counted from 1, as their ids are.
    put_table(rows, "debug attributes", sheet.attributes(), put, 1);
    put_table(rows, "debug lists", sheet.lists(), put);
}

void put_constants(Sink &out, const Sheet &sheet, std::uint64_t constants_at) {
    Rows rows(out, sheet);
    std::uint64_t number = 0;
    for (const Bytes constant : sheet.constants()) {
        rows.put("      constant ", number++, ": ").run(constant, constants_at).put('\n');
        constants_at += constant.size();
    }
    rows.put(number == 0 ? "      no constants\n" : "");
}

}  // namespace command::text
