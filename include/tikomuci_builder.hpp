// tikomuci_builder.hpp: makes a sheet and a pool, and the file of them, from typed rows, for C++17 and later.
//
// A Builder counts: the words of a row, the lengths, the table of contents. Whether the rows are well-formed for their
// version is judged by the library when the file is made. It keeps its rows in std::vectors, and is the one part of
// these headers that may throw: std::bad_alloc, and then it can only be destroyed.
#ifndef TIKOMUCI_BUILDER_HPP
#define TIKOMUCI_BUILDER_HPP

#include <array>
#include <cstddef>
#include <cstdint>
#include <initializer_list>
#include <limits>
#include <optional>
#include <string_view>
#include <type_traits>
#include <utility>
#include <variant>
#include <vector>

#include "tikomuci_tables.hpp"

namespace tikomuci {
inline namespace TIKOMUCI_SPANS {

namespace detail {

/// Whether every number of one type is one of another.
template <typename From, typename To>
inline constexpr bool is_kept = std::is_integral_v<From> &&
                                (std::is_signed_v<To> || std::is_unsigned_v<From>)&&std::numeric_limits<From>::digits
                                    <= std::numeric_limits<To>::digits;

/// The words of a row that is made.
class MadeRow {
  public:
    MadeRow() = default;
    explicit MadeRow(TypeTag tag) { word(number_of(tag)); }

    MadeRow &word(std::uint64_t value) {
        words_.push_back(value);
        return *this;
    }

    /// Flags, whose bit 0 says whether the row's last word is there, and that word.
    MadeRow &flags(std::uint64_t flags, const std::optional<std::uint64_t> &last) {
        return word((flags & ~std::uint64_t{1}) | std::uint64_t{last.has_value()});
    }
    MadeRow &last(const std::optional<std::uint64_t> &value) { return word(value.value_or(0)); }

    /// A count, and as many numbers.
    template <typename List>
    MadeRow &i32s(const List &numbers) {
        return list<std::int32_t>(numbers);
    }
    template <typename List>
    MadeRow &i64s(const List &numbers) {
        return list<std::int64_t>(numbers);
    }
    template <typename List>
    MadeRow &words(const List &numbers) {
        return list<std::uint64_t>(numbers);
    }

    [[nodiscard]] const std::vector<std::uint64_t> &words() const noexcept { return words_; }

  private:
    template <typename Int, typename List>
    MadeRow &list(const List &numbers) {
        word(std::size(numbers));
        for (const auto number : numbers) {
            static_assert(is_kept<bare_t<decltype(number)>, Int>, "a list has numbers that may not fit");
            word(static_cast<std::make_unsigned_t<Int>>(number));
        }
        return *this;
    }

    std::vector<std::uint64_t> words_;
};

/// A table that is made: its words, how many rows they are, and their bytes of the pool.
struct MadeTable {
    std::vector<std::uint64_t> words;
    std::uint64_t rows = 0;
    std::vector<std::uint8_t> pool;

    std::uint64_t add(const std::vector<std::uint64_t> &row) {
        words.insert(words.end(), row.begin(), row.end());
        return rows++;
    }

    /// A row behind the count of its words.
    std::uint64_t add_counted(const MadeRow &row) {
        words.push_back(row.words().size());
        return add(row.words());
    }

    void add_bytes(Bytes bytes) { pool.insert(pool.end(), bytes.begin(), bytes.end()); }

    /// A row that is the length of its bytes.
    std::uint64_t add_run(Bytes bytes) {
        add_bytes(bytes);
        return add({bytes.size()});
    }
};

inline void store(std::vector<std::uint8_t> &bytes, const std::vector<std::uint64_t> &words) {
    for (const std::uint64_t word : words) {
        for (unsigned shift = 0; shift < 64; shift += 8) {
            bytes.push_back(static_cast<std::uint8_t>(word >> shift));
        }
    }
}

}  // namespace detail

/// Adds rows to tables. Each call that adds one answers its number, as other rows name it: that of an attribute is its
/// id, counted from 1. A list is a range of integers that fit, or stands in braces. Bit 0 of flags is set or cleared
/// by whether the optional word is given.
class Builder {
  public:
    explicit Builder(Version version) noexcept : version_(version) {}

    /// All that a sheet has.
    explicit Builder(const Sheet &sheet) : version_(sheet.version()), producer_(sheet.producer()) {
        copy(sheet.strings(), [this](Bytes row) { string(row); });
        copy(sheet.types(), [this](const Type &row) { type(row); });
        copy(sheet.constants(), [this](Bytes row) { constant(row); });
        copy(sheet.globals(), [this](const Global &row) { global(row); });
        copy(sheet.functions(), [this](const Function &row) { function(row); });
        copy(sheet.attributes(), [this](const Attribute &row) { attribute(row); });
        copy(sheet.lists(), [this](const Words &row) { list(row); });
    }

    /// The number of the string that names the producer.
    void producer(std::uint64_t string) noexcept { producer_ = string; }

    std::uint64_t string(Input bytes) { return strings_.add_run(bytes.bytes()); }
    std::uint64_t string(std::string_view text) {
        return strings_.add_run({reinterpret_cast<const std::uint8_t *>(text.data()), text.size()});
    }
    std::uint64_t constant(Input bytes) { return constants_.add_run(bytes.bytes()); }

    /// One of the sixteen scalars, or the token.
    std::uint64_t scalar(TypeTag tag) { return types_.add_counted(Row(tag)); }

    std::uint64_t pointer(std::uint64_t element, std::optional<std::uint64_t> attribute = {}, std::uint64_t flags = 0) {
        return types_.add_counted(Row(TypeTag::Pointer).flags(flags, attribute).word(element).last(attribute));
    }

    template <typename Shape = std::initializer_list<std::int64_t>>
    std::uint64_t tile(std::uint64_t element, const Shape &shape) {
        return types_.add_counted(Row(TypeTag::Tile).word(element).i64s(shape));
    }

    template <typename Shape = std::initializer_list<std::int64_t>,
              typename Strides = std::initializer_list<std::int64_t>>
    std::uint64_t tensor_view(std::uint64_t element, const Shape &shape, const Strides &strides,
                              std::optional<std::uint64_t> attribute = {}, std::uint64_t flags = 0) {
        Row row(TypeTag::TensorView);
        row.flags(flags, attribute).word(element).i64s(shape).i64s(strides).last(attribute);
        return types_.add_counted(row);
    }

    template <typename Shape = std::initializer_list<std::int32_t>, typename Map = std::initializer_list<std::int32_t>>
    std::uint64_t partition_view(const Shape &shape, std::uint64_t view, const Map &map,
                                 std::optional<std::uint64_t> padding = {}, std::uint64_t flags = 0) {
        Row row(TypeTag::PartitionView);
        row.flags(flags, padding).i32s(shape).word(view).i32s(map).last(padding);
        return types_.add_counted(row);
    }

    template <typename Shape = std::initializer_list<std::int32_t>>
    std::uint64_t gather_scatter_view(const Shape &shape, std::uint64_t view, std::uint64_t sparse,
                                      std::optional<std::uint64_t> padding = {}, std::uint64_t flags = 0) {
        Row row(TypeTag::GatherScatterView);
        row.flags(flags, padding).i32s(shape).word(view).word(sparse).last(padding);
        return types_.add_counted(row);
    }

    template <typename Shape = std::initializer_list<std::int32_t>,
              typename Strides = std::initializer_list<std::int32_t>,
              typename Map = std::initializer_list<std::int32_t>>
    std::uint64_t strided_view(const Shape &shape, const Strides &strides, std::uint64_t view, const Map &map,
                               std::optional<std::uint64_t> padding = {}, std::uint64_t flags = 0) {
        Row row(TypeTag::StridedView);
        row.flags(flags, padding).i32s(shape).i32s(strides).word(view).i32s(map).last(padding);
        return types_.add_counted(row);
    }

    template <typename Inputs = std::initializer_list<std::uint64_t>,
              typename Results = std::initializer_list<std::uint64_t>>
    std::uint64_t func(const Inputs &inputs, const Results &results) {
        return types_.add_counted(Row(TypeTag::Func).words(inputs).words(results));
    }

    /// A row of any kind, as a sheet has it.
    std::uint64_t type(const Type &row) {
        return std::visit([&](const auto &kind) { return type(row.tag, kind); }, row.kind);
    }

    std::uint64_t global(const Global &row) {
        return globals_.add(
            {row.name, row.type, row.constant, row.alignment, row.visibility, std::uint64_t{row.is_constant}});
    }

    std::uint64_t function(const Function &row) {
        functions_.add_bytes(row.body);
        return functions_.add({row.name, row.signature, row.flags, row.location, row.body.size()});
    }

    /// Attributes name each other by their ids, and strings by their numbers: the two of a DIFile, the file of a DILoc,
    /// and the two names of a DISubprogram.
    std::uint64_t unknown() { return attribute(DebugTag::Unknown, std::array<std::uint64_t, 0>{}); }
    std::uint64_t di_compile_unit(std::uint64_t file) { return attribute(DebugTag::DICompileUnit, std::array{file}); }
    std::uint64_t di_file(std::uint64_t name, std::uint64_t directory) {
        return attribute(DebugTag::DIFile, std::array{name, directory});
    }
    std::uint64_t di_lexical_block(std::uint64_t scope, std::uint64_t file, std::uint64_t line, std::uint64_t column) {
        return attribute(DebugTag::DILexicalBlock, std::array{scope, file, line, column});
    }
    std::uint64_t di_loc(std::uint64_t scope, std::uint64_t file, std::uint64_t line, std::uint64_t column) {
        return attribute(DebugTag::DILoc, std::array{scope, file, line, column});
    }
    std::uint64_t di_subprogram(std::uint64_t file, std::uint64_t line, std::uint64_t name, std::uint64_t linkage_name,
                                std::uint64_t compile_unit, std::uint64_t scope_line) {
        return attribute(DebugTag::DISubprogram, std::array{file, line, name, linkage_name, compile_unit, scope_line});
    }
    std::uint64_t call_site(std::uint64_t callee, std::uint64_t caller) {
        return attribute(DebugTag::CallSite, std::array{callee, caller});
    }

    /// A row of any kind, as a sheet has it.
    std::uint64_t attribute(const Attribute &row) { return attribute(row.tag, row.fields); }

    /// The attribute ids of a function.
    template <typename Ids = std::initializer_list<std::uint64_t>>
    std::uint64_t list(const Ids &ids) {
        return lists_.add(Row().words(ids).words());
    }

    /// The sheet, as the bytes that are lent.
    [[nodiscard]] std::vector<std::uint8_t> sheet() const {
        std::vector<std::uint64_t> contents = {version_.major, version_.minor, version_.tag,
                                               producer_ ? *producer_ + 1 : 0, 0};
        std::uint64_t at = TIKOMUCI_CONTENTS_WORDS;
        for (const detail::MadeTable *table : tables()) {
            contents.insert(contents.end(), {at, table->rows});
            contents[4] += table->pool.size();
            at += table->words.size();
        }
        std::vector<std::uint8_t> bytes;
        bytes.reserve(at * detail::WORD);
        detail::store(bytes, contents);
        for (const detail::MadeTable *table : tables()) {
            detail::store(bytes, table->words);
        }
        return bytes;
    }

    [[nodiscard]] std::vector<std::uint8_t> pool() const {
        std::vector<std::uint8_t> bytes;
        for (const detail::MadeTable *table : tables()) {
            bytes.insert(bytes.end(), table->pool.begin(), table->pool.end());
        }
        return bytes;
    }

    /// The file of the sheet and the pool, or why there is none: Sheet if a row is not well-formed, Start or Limit.
    [[nodiscard]] Got<std::vector<std::uint8_t>> file() const {
        const std::vector<std::uint8_t> words = sheet();
        const std::vector<std::uint8_t> bytes = pool();
        const Got<std::uint64_t> size = image(words);
        if (!size) {
            return size.outcome();
        }
        std::vector<std::uint8_t> image(*size);
        const Got<std::uint64_t> written = write(words, bytes, image);
        if (!written) {
            return written.outcome();
        }
        return image;
    }

  private:
    using Row = detail::MadeRow;

    template <typename Rows, typename Add>
    static void copy(const Rows &rows, Add add) {
        for (const auto &row : rows) {
            add(row);
        }
    }

    std::uint64_t type(TypeTag tag, const Scalar &) { return scalar(tag); }
    std::uint64_t type(TypeTag, const Pointer &t) { return pointer(t.element, t.attribute, t.flags); }
    std::uint64_t type(TypeTag, const Tile &t) { return tile(t.element, t.shape); }
    std::uint64_t type(TypeTag, const TensorView &t) {
        return tensor_view(t.element, t.shape, t.strides, t.attribute, t.flags);
    }
    std::uint64_t type(TypeTag, const PartitionView &t) {
        return partition_view(t.shape, t.view, t.map, t.padding, t.flags);
    }
    std::uint64_t type(TypeTag, const GatherScatterView &t) {
        return gather_scatter_view(t.shape, t.view, t.sparse, t.padding, t.flags);
    }
    std::uint64_t type(TypeTag, const StridedView &t) {
        return strided_view(t.shape, t.strides, t.view, t.map, t.padding, t.flags);
    }
    std::uint64_t type(TypeTag, const FuncType &t) { return func(t.inputs, t.results); }

    /// Six fields, of which those behind the tag's own are 0.
    template <typename Fields>
    std::uint64_t attribute(DebugTag tag, const Fields &fields) {
        std::vector<std::uint64_t> row = {number_of(tag)};
        row.insert(row.end(), fields.begin(), fields.end());
        row.resize(7, 0);
        return attributes_.add(row) + 1;
    }

    /// In the order of the sheet, which is that of their bytes in the pool too.
    [[nodiscard]] std::array<const detail::MadeTable *, 7> tables() const noexcept {
        return {&strings_, &types_, &constants_, &globals_, &functions_, &attributes_, &lists_};
    }

    Version version_;
    std::optional<std::uint64_t> producer_;
    detail::MadeTable strings_;
    detail::MadeTable types_;
    detail::MadeTable constants_;
    detail::MadeTable globals_;
    detail::MadeTable functions_;
    detail::MadeTable attributes_;
    detail::MadeTable lists_;
};

}  // namespace TIKOMUCI_SPANS
}  // namespace tikomuci

#endif
