// tikomuci_tables.hpp: the tables of a file as typed rows, for C++17 and later.
//
// `read` reads a file into stores of its own, a Tables; `Sheet::open` takes stores that a host lends. A Sheet has a
// range of rows for each table, and answers a row by its number. A number that no row has gets nothing, and whatever
// the words say, no accessor reaches outside the sheet or the pool. Nothing here throws, and only `read` and a TypeText
// allocate.
//
// What it costs: a step of a range costs the same wherever it is made, but for a type, which costs a step for each of
// its fields. A row by its number is found at once on the sheet of a Tables. On a sheet over lent stores globals and
// attributes are, and the others by a walk from the first row, until the host lends a store for an index. The text of a
// type costs as much as judging the whole sheet, and walks of its own.
#ifndef TIKOMUCI_TABLES_HPP
#define TIKOMUCI_TABLES_HPP

#include <array>
#include <cassert>
#include <cstddef>
#include <cstdint>
#include <iterator>
#include <limits>
#include <memory>
#include <new>
#include <optional>
#include <string_view>
#include <utility>
#include <variant>

#include "tikomuci.hpp"

namespace tikomuci {
inline namespace TIKOMUCI_SPANS {

struct Version {
    std::uint8_t major = 0;
    std::uint8_t minor = 0;
    std::uint16_t tag = 0;

    /// Versions come in the order of their numbers.
    [[nodiscard]] constexpr std::uint32_t order() const noexcept {
        return std::uint32_t{major} << 24 | std::uint32_t{minor} << 16 | tag;
    }
    friend constexpr bool operator==(Version a, Version b) noexcept { return a.order() == b.order(); }
    friend constexpr bool operator!=(Version a, Version b) noexcept { return a.order() != b.order(); }
    friend constexpr bool operator<(Version a, Version b) noexcept { return a.order() < b.order(); }
    friend constexpr bool operator<=(Version a, Version b) noexcept { return a.order() <= b.order(); }
    friend constexpr bool operator>(Version a, Version b) noexcept { return a.order() > b.order(); }
    friend constexpr bool operator>=(Version a, Version b) noexcept { return a.order() >= b.order(); }
};

enum class TypeTag : std::uint8_t {
    I1 = TIKOMUCI_TYPE_I1,
    I8 = TIKOMUCI_TYPE_I8,
    I16 = TIKOMUCI_TYPE_I16,
    I32 = TIKOMUCI_TYPE_I32,
    I64 = TIKOMUCI_TYPE_I64,
    F16 = TIKOMUCI_TYPE_F16,
    BF16 = TIKOMUCI_TYPE_BF16,
    F32 = TIKOMUCI_TYPE_F32,
    TF32 = TIKOMUCI_TYPE_TF32,
    F64 = TIKOMUCI_TYPE_F64,
    F8E4M3FN = TIKOMUCI_TYPE_F8E4M3FN,
    F8E5M2 = TIKOMUCI_TYPE_F8E5M2,
    Pointer = TIKOMUCI_TYPE_POINTER,
    Tile = TIKOMUCI_TYPE_TILE,
    TensorView = TIKOMUCI_TYPE_TENSOR_VIEW,
    PartitionView = TIKOMUCI_TYPE_PARTITION_VIEW,
    Func = TIKOMUCI_TYPE_FUNC,
    Token = TIKOMUCI_TYPE_TOKEN,
    F8E8M0FNU = TIKOMUCI_TYPE_F8E8M0FNU,
    F4E2M1FN = TIKOMUCI_TYPE_F4E2M1FN,
    GatherScatterView = TIKOMUCI_TYPE_GATHER_SCATTER_VIEW,
    StridedView = TIKOMUCI_TYPE_STRIDED_VIEW,
    I4 = TIKOMUCI_TYPE_I4,
    F8E5M3FNU = TIKOMUCI_TYPE_F8E5M3FNU,
};

enum class DebugTag : std::uint8_t {
    Unknown = TIKOMUCI_DEBUG_UNKNOWN,
    DICompileUnit = TIKOMUCI_DEBUG_DI_COMPILE_UNIT,
    DIFile = TIKOMUCI_DEBUG_DI_FILE,
    DILexicalBlock = TIKOMUCI_DEBUG_DI_LEXICAL_BLOCK,
    DILoc = TIKOMUCI_DEBUG_DI_LOC,
    DISubprogram = TIKOMUCI_DEBUG_DI_SUBPROGRAM,
    CallSite = TIKOMUCI_DEBUG_CALL_SITE,
};

namespace detail {

inline constexpr std::array<std::string_view, 23> TYPE_NAMES = {
    "i1",
    "i8",
    "i16",
    "i32",
    "i64",
    "f16",
    "bf16",
    "f32",
    "tf32",
    "f64",
    "f8e4m3fn",
    "f8e5m2",
    "ptr",
    "tile",
    "tensor_view",
    "partition_view",
    "func",
    "token",
    "f8e8m0fnu",
    "f4e2m1fn",
    "gather_scatter_view",
    "strided_view",
    "i4",
};

inline constexpr std::array<std::string_view, 7> DEBUG_NAMES = {"Unknown", "DICompileUnit", "DIFile",  "DILexicalBlock",
                                                                "DILoc",   "DISubprogram",  "CallSite"};

/// How many of the six fields of an attribute its tag has.
inline constexpr std::array<std::size_t, 7> DEBUG_FIELDS = {0, 1, 2, 4, 4, 6, 2};

}  // namespace detail

/// The name of a tag; empty if there is no such tag. The data() of a name ends with a zero.
[[nodiscard]] constexpr std::string_view type_name(TypeTag tag) noexcept {
    if (tag == TypeTag::F8E5M3FNU) {
        return "f8e5m3fnu";
    }
    return number_of(tag) < detail::TYPE_NAMES.size() ? detail::TYPE_NAMES[number_of(tag)] : std::string_view{};
}

[[nodiscard]] constexpr std::string_view debug_name(DebugTag tag) noexcept {
    return number_of(tag) < detail::DEBUG_NAMES.size() ? detail::DEBUG_NAMES[number_of(tag)] : std::string_view{};
}

/// How many fields an attribute with this tag has.
[[nodiscard]] constexpr std::size_t debug_fields(DebugTag tag) noexcept {
    return number_of(tag) < detail::DEBUG_FIELDS.size() ? detail::DEBUG_FIELDS[number_of(tag)] : 0;
}

namespace detail {

inline constexpr std::size_t WORD = 8;

/// A little-endian word, wherever it stands.
[[nodiscard]] inline std::uint64_t load(const std::uint8_t *bytes) noexcept {
    const auto at = [bytes](unsigned i) { return std::uint64_t{bytes[i]} << 8 * i; };
    return at(0) | at(1) | at(2) | at(3) | at(4) | at(5) | at(6) | at(7);
}

}  // namespace detail

/// Numbers of a row, which stand in the sheet as words, a signed one as its bit pattern in its width.
template <typename Int>
class Numbers {
  public:
    class Iterator {
      public:
        using iterator_category = std::input_iterator_tag;
        using iterator_concept = std::forward_iterator_tag;
        using value_type = Int;
        using difference_type = std::ptrdiff_t;
        using reference = Int;
        using pointer = void;

        Iterator() = default;
        explicit Iterator(const std::uint8_t *word) noexcept : word_(word) {}

        Int operator*() const noexcept { return static_cast<Int>(detail::load(word_)); }
        Iterator &operator++() noexcept {
            word_ += detail::WORD;
            return *this;
        }
        Iterator operator++(int) noexcept { return Iterator(std::exchange(word_, word_ + detail::WORD)); }
        friend bool operator==(const Iterator &a, const Iterator &b) noexcept { return a.word_ == b.word_; }
        friend bool operator!=(const Iterator &a, const Iterator &b) noexcept { return a.word_ != b.word_; }

      private:
        const std::uint8_t *word_ = nullptr;
    };

    Numbers() = default;
    /// The whole words of these bytes.
    explicit Numbers(Bytes bytes) noexcept : words_(bytes.data()), size_(bytes.size() / detail::WORD) {}

    [[nodiscard]] std::size_t size() const noexcept { return size_; }
    [[nodiscard]] bool empty() const noexcept { return size_ == 0; }
    [[nodiscard]] std::optional<Int> at(std::uint64_t i) const noexcept {
        return i < size_ ? std::optional(*Iterator(words_ + i * detail::WORD)) : std::nullopt;
    }
    [[nodiscard]] Int operator[](std::uint64_t i) const noexcept {
        assert(i < size_);
        return at(i).value_or(0);
    }
    [[nodiscard]] Iterator begin() const noexcept { return Iterator(words_); }
    [[nodiscard]] Iterator end() const noexcept { return Iterator(words_ + size_ * detail::WORD); }

  private:
    const std::uint8_t *words_ = nullptr;
    std::size_t size_ = 0;
};

using Words = Numbers<std::uint64_t>;
using I32s = Numbers<std::int32_t>;
using I64s = Numbers<std::int64_t>;

// The types by kind. A number of a type, a string or a constant is kept as the file has it and may be outside.

struct Scalar {};

struct Pointer {
    std::uint64_t flags = 0;
    std::uint64_t element = 0;
    std::optional<std::uint64_t> attribute;
};

struct Tile {
    std::uint64_t element = 0;
    I64s shape;
};

struct TensorView {
    std::uint64_t flags = 0;
    std::uint64_t element = 0;
    I64s shape;
    I64s strides;
    std::optional<std::uint64_t> attribute;
};

struct PartitionView {
    std::uint64_t flags = 0;
    I32s shape;
    std::uint64_t view = 0;
    I32s map;
    std::optional<std::uint64_t> padding;
};

struct GatherScatterView {
    std::uint64_t flags = 0;
    I32s shape;
    std::uint64_t view = 0;
    std::uint64_t sparse = 0;
    std::optional<std::uint64_t> padding;
};

struct StridedView {
    std::uint64_t flags = 0;
    I32s shape;
    I32s strides;
    std::uint64_t view = 0;
    I32s map;
    std::optional<std::uint64_t> padding;
};

struct FuncType {
    Words inputs;
    Words results;
};

struct Type {
    TypeTag tag = TypeTag::I1;
    std::variant<Scalar, Pointer, Tile, TensorView, PartitionView, GatherScatterView, StridedView, FuncType> kind;
};

/// Below 13.3 the last two are 0.
struct Global {
    std::uint64_t name = 0;
    std::uint64_t type = 0;
    std::uint64_t constant = 0;
    std::uint64_t alignment = 0;
    std::uint64_t visibility = 0;
    bool is_constant = false;
};

struct Function {
    std::uint64_t name = 0;
    std::uint64_t signature = 0;
    std::uint64_t flags = 0;
    std::uint64_t location = 0;
    Bytes body;

    [[nodiscard]] bool is_private() const noexcept { return (flags & TIKOMUCI_FUNCTION_PRIVATE) != 0; }
    [[nodiscard]] bool is_kernel() const noexcept { return (flags & TIKOMUCI_FUNCTION_KERNEL) != 0; }
};

/// The fields that its tag has, in wire order.
struct Attribute {
    DebugTag tag = DebugTag::Unknown;
    Words fields;
};

namespace detail {

/// Takes words from the front of a type's row. What is not there is taken as nothing, and is not forgotten.
class Taker {
  public:
    explicit Taker(Bytes row) noexcept : row_(row) {}

    std::uint64_t word() noexcept {
        const Bytes one = words(1);
        return one.empty() ? 0 : load(one.data());
    }

    /// A count, and as many numbers.
    template <typename List>
    List list() noexcept {
        return List(words(word()));
    }

    /// The last word of a row that has it if bit 0 of its flags is set.
    std::optional<std::uint64_t> last(std::uint64_t flags) noexcept {
        const std::uint64_t value = word();
        return (flags & 1) != 0 ? std::optional(value) : std::nullopt;
    }

    /// Whether all was there, and nothing is left.
    [[nodiscard]] bool whole() const noexcept { return good_ && row_.empty(); }

  private:
    Bytes words(std::uint64_t count) noexcept {
        if (row_.size() / WORD < count) {
            good_ = false;
            row_ = {};
            return {};
        }
        const Bytes taken = row_.first(count * WORD);
        row_ = row_.subspan(count * WORD);
        return taken;
    }

    Bytes row_;
    bool good_ = true;
};

/// The fields of a type, by its tag. What stands in braces is taken from left to right.
inline Pointer pointer_of(Taker &row) noexcept {
    const std::uint64_t flags = row.word();
    return {flags, row.word(), row.last(flags)};
}

inline Tile tile_of(Taker &row) noexcept { return {row.word(), row.list<I64s>()}; }

inline TensorView tensor_view_of(Taker &row) noexcept {
    const std::uint64_t flags = row.word();
    return {flags, row.word(), row.list<I64s>(), row.list<I64s>(), row.last(flags)};
}

inline PartitionView partition_view_of(Taker &row) noexcept {
    const std::uint64_t flags = row.word();
    return {flags, row.list<I32s>(), row.word(), row.list<I32s>(), row.last(flags)};
}

inline GatherScatterView gather_scatter_view_of(Taker &row) noexcept {
    const std::uint64_t flags = row.word();
    return {flags, row.list<I32s>(), row.word(), row.word(), row.last(flags)};
}

inline StridedView strided_view_of(Taker &row) noexcept {
    const std::uint64_t flags = row.word();
    return {flags, row.list<I32s>(), row.list<I32s>(), row.word(), row.list<I32s>(), row.last(flags)};
}

inline FuncType func_type_of(Taker &row) noexcept { return {row.list<Words>(), row.list<Words>()}; }

/// The type of a row without its count; nothing if the tag is not known, or the row is not as long as its fields.
[[nodiscard]] inline std::optional<Type> type_of(Bytes words) noexcept {
    Taker row(words);
    const std::uint64_t tag = row.word();
    Type type{static_cast<TypeTag>(tag), Scalar{}};
    if (words.empty() || number_of(type.tag) != tag || type_name(type.tag).empty()) {
        return std::nullopt;
    }
    switch (type.tag) {
        case TypeTag::Pointer:
            type.kind = pointer_of(row);
            break;
        case TypeTag::Tile:
            type.kind = tile_of(row);
            break;
        case TypeTag::TensorView:
            type.kind = tensor_view_of(row);
            break;
        case TypeTag::PartitionView:
            type.kind = partition_view_of(row);
            break;
        case TypeTag::GatherScatterView:
            type.kind = gather_scatter_view_of(row);
            break;
        case TypeTag::StridedView:
            type.kind = strided_view_of(row);
            break;
        case TypeTag::Func:
            type.kind = func_type_of(row);
            break;
        default:
            break;
    }
    return row.whole() ? std::optional(type) : std::nullopt;
}

/// Where a row stands: its first word, and the first byte that it has in the pool.
struct Place {
    std::uint64_t word = 0;
    std::uint64_t byte = 0;
};

/// A sheet and its pool as they are lent. What is outside of them is nothing: a word is 0, words and runs are empty.
class Stores {
  public:
    Stores() = default;
    Stores(Bytes sheet, Bytes pool) noexcept : sheet_(sheet), pool_(pool) {}

    [[nodiscard]] Bytes sheet() const noexcept { return sheet_; }
    [[nodiscard]] Bytes pool() const noexcept { return pool_; }
    [[nodiscard]] std::uint64_t count() const noexcept { return sheet_.size() / WORD; }

    [[nodiscard]] bool has_words(std::uint64_t from, std::uint64_t count_) const noexcept {
        return from <= count() && count_ <= count() - from;
    }
    [[nodiscard]] bool has_run(std::uint64_t from, std::uint64_t size) const noexcept {
        return from <= pool_.size() && size <= pool_.size() - from;
    }
    [[nodiscard]] std::uint64_t word(std::uint64_t i) const noexcept {
        return has_words(i, 1) ? load(sheet_.data() + i * WORD) : 0;
    }
    [[nodiscard]] Bytes words(std::uint64_t from, std::uint64_t count_) const noexcept {
        return has_words(from, count_) ? sheet_.subspan(from * WORD, count_ * WORD) : Bytes();
    }
    [[nodiscard]] Bytes run(std::uint64_t from, std::uint64_t size) const noexcept {
        return has_run(from, size) ? pool_.subspan(from, size) : Bytes();
    }

  private:
    Bytes sheet_;
    Bytes pool_;
};

// The kinds of rows. Each says whether a row stands whole at a place (`fits`), what the row is, and where the next one
// stands; of a row that has to be looked for, `key` is the half of its place that an index keeps, and `place` the place
// that has it.

/// A length, and as many bytes of the pool.
struct RunKind {
    using Row = Bytes;
    static constexpr bool FIXED = false;

    static bool fits(const Stores &stores, Place at) noexcept {
        return stores.has_words(at.word, 1) && stores.has_run(at.byte, stores.word(at.word));
    }
    static std::optional<Row> row(const Stores &stores, Place at) noexcept {
        return stores.run(at.byte, stores.word(at.word));
    }
    static Place next(const Stores &stores, Place at) noexcept { return {at.word + 1, at.byte + stores.word(at.word)}; }
    static std::uint64_t key(Place at) noexcept { return at.byte; }
    static Place place(Place first, std::uint64_t number, std::uint64_t key) noexcept {
        return {first.word + number, key};
    }
};

/// A count, and as many words.
struct ListKind {
    using Row = Words;
    static constexpr bool FIXED = false;

    static Bytes words(const Stores &stores, Place at) noexcept {
        return stores.words(at.word + 1, stores.word(at.word));
    }
    static bool fits(const Stores &stores, Place at) noexcept {
        return stores.has_words(at.word, 1) && stores.has_words(at.word + 1, stores.word(at.word));
    }
    static std::optional<Row> row(const Stores &stores, Place at) noexcept { return Row(words(stores, at)); }
    static Place next(const Stores &stores, Place at) noexcept { return {at.word + 1 + stores.word(at.word), at.byte}; }
    static std::uint64_t key(Place at) noexcept { return at.word; }
    static Place place(Place first, std::uint64_t, std::uint64_t key) noexcept { return {key, first.byte}; }
};

struct TypeKind : ListKind {
    using Row = Type;

    static bool fits(const Stores &stores, Place at) noexcept { return row(stores, at).has_value(); }
    static std::optional<Row> row(const Stores &stores, Place at) noexcept { return type_of(words(stores, at)); }
};

/// Rows of `Width` words.
template <std::uint64_t Width>
struct FixedKind {
    static constexpr bool FIXED = true;

    static bool fits(const Stores &stores, Place at) noexcept { return stores.has_words(at.word, Width); }
    static Place next(const Stores &, Place at) noexcept { return {at.word + Width, at.byte}; }
    static Place place(Place first, std::uint64_t number) noexcept { return {first.word + number * Width, first.byte}; }
};

struct GlobalKind : FixedKind<6> {
    using Row = Global;

    static std::optional<Row> row(const Stores &stores, Place at) noexcept {
        const auto word = [&](std::uint64_t i) { return stores.word(at.word + i); };
        return Row{word(0), word(1), word(2), word(3), word(4), word(5) != 0};
    }
};

struct AttributeKind : FixedKind<7> {
    using Row = Attribute;

    static bool fits(const Stores &stores, Place at) noexcept {
        return FixedKind::fits(stores, at) && stores.word(at.word) < DEBUG_FIELDS.size();
    }
    static std::optional<Row> row(const Stores &stores, Place at) noexcept {
        if (!fits(stores, at)) {
            return std::nullopt;
        }
        const auto tag = static_cast<DebugTag>(stores.word(at.word));
        return Row{tag, Words(stores.words(at.word + 1, debug_fields(tag)))};
    }
};

/// Four words, a length, and as many bytes of the pool.
struct FunctionKind {
    using Row = Function;
    static constexpr bool FIXED = false;
    static constexpr std::uint64_t WIDTH = 5;

    static std::uint64_t size(const Stores &stores, Place at) noexcept { return stores.word(at.word + WIDTH - 1); }
    static bool fits(const Stores &stores, Place at) noexcept {
        return stores.has_words(at.word, WIDTH) && stores.has_run(at.byte, size(stores, at));
    }
    static std::optional<Row> row(const Stores &stores, Place at) noexcept {
        const auto word = [&](std::uint64_t i) { return stores.word(at.word + i); };
        return Row{word(0), word(1), word(2), word(3), stores.run(at.byte, size(stores, at))};
    }
    static Place next(const Stores &stores, Place at) noexcept { return {at.word + WIDTH, at.byte + size(stores, at)}; }
    static std::uint64_t key(Place at) noexcept { return at.byte; }
    static Place place(Place first, std::uint64_t number, std::uint64_t key) noexcept {
        return {first.word + number * WIDTH, key};
    }
};

using Index = span<const std::uint32_t>;

}  // namespace detail

/// The rows of a table, in their order and by value. They are there as long as the stores are.
template <typename Kind>
class Rows {
  public:
    using Row = typename Kind::Row;

    class Iterator {
      public:
        using iterator_category = std::input_iterator_tag;
        using iterator_concept = std::forward_iterator_tag;
        using value_type = Row;
        using difference_type = std::ptrdiff_t;
        using reference = Row;
        using pointer = void;

        Iterator() = default;
        Iterator(const detail::Stores &stores, detail::Place at, std::uint64_t number) noexcept
            : stores_(stores), at_(at), number_(number) {}

        /// The row; an empty one if somebody changed the words so that there is none.
        Row operator*() const noexcept { return Kind::row(stores_, at_).value_or(Row{}); }
        Iterator &operator++() noexcept {
            at_ = Kind::next(stores_, at_);
            ++number_;
            return *this;
        }
        Iterator operator++(int) noexcept {
            const Iterator before = *this;
            ++*this;
            return before;
        }
        /// The number of the row.
        [[nodiscard]] std::uint64_t number() const noexcept { return number_; }
        [[nodiscard]] detail::Place place() const noexcept { return at_; }

        friend bool operator==(const Iterator &a, const Iterator &b) noexcept { return a.number_ == b.number_; }
        friend bool operator!=(const Iterator &a, const Iterator &b) noexcept { return a.number_ != b.number_; }

      private:
        detail::Stores stores_;
        detail::Place at_;
        std::uint64_t number_ = 0;
    };

    Rows() = default;
    Rows(const detail::Stores &stores, detail::Place first, std::uint64_t size, detail::Index index) noexcept
        : stores_(stores), first_(first), size_(size), index_(index) {}

    [[nodiscard]] std::size_t size() const noexcept { return size_; }
    [[nodiscard]] bool empty() const noexcept { return size_ == 0; }
    [[nodiscard]] Iterator begin() const noexcept { return Iterator(stores_, first_, 0); }
    [[nodiscard]] Iterator end() const noexcept { return Iterator(stores_, first_, size_); }

    /// The row with this number, if there is one.
    [[nodiscard]] std::optional<Row> at(std::uint64_t number) const noexcept {
        return number < size_ ? Kind::row(stores_, place(number)) : std::nullopt;
    }

  private:
    [[nodiscard]] detail::Place place(std::uint64_t number) const noexcept {
        if constexpr (Kind::FIXED) {
            return Kind::place(first_, number);
        } else {
            if (number < index_.size()) {
                return Kind::place(first_, number, index_[number]);
            }
            Iterator row = begin();
            while (row.number() < number) {
                ++row;
            }
            return row.place();
        }
    }

    detail::Stores stores_;
    detail::Place first_;
    std::uint64_t size_ = 0;
    detail::Index index_;
};

/// How many bytes the text of a type may have, if the host does not say it.
inline constexpr std::size_t TYPE_TEXT_BYTES = 4096;

class TypeText;
[[nodiscard]] Got<TypeText> type_text(Input sheet, std::uint64_t row, std::size_t most = TYPE_TEXT_BYTES) noexcept;

/// The text of a type, in memory of its own.
class TypeText {
  public:
    /// No text, as that is that was moved from.
    TypeText() = default;

    /// The data() ends with a zero.
    [[nodiscard]] std::string_view view() const &noexcept {
        return text_ ? std::string_view(text_.get(), size_) : std::string_view("");
    }
    std::string_view view() const &&TIKOMUCI_DELETED("keep the text in a variable: the view is a part of it");

  private:
    friend Got<TypeText> type_text(Input sheet, std::uint64_t row, std::size_t most) noexcept;

    std::unique_ptr<char[]> text_;
    std::size_t size_ = 0;
};

/// The text of a type, as the call over spans has it, if it has `most` bytes or fewer; Full if it has more, and Memory
/// if there is none for so many. The stack that it takes grows with `most`: TIKOMUCI_TYPE_TEXT_STACK.
[[nodiscard]] inline Got<TypeText> type_text(Input sheet, std::uint64_t row, std::size_t most) noexcept {
    TypeText text;
    // There is no larger memory, and then there is a byte for the zero too.
    if (most < std::numeric_limits<std::ptrdiff_t>::max()) {
        text.text_.reset(new (std::nothrow) char[most + 1]);
    }
    if (!text.text_) {
        return Outcome{Refusal::Memory, Stage::Call};
    }
    const Got<std::uint64_t> size =
        type_text(sheet, row, Store(reinterpret_cast<std::uint8_t *>(text.text_.get()), most));
    if (!size) {
        return size.outcome();
    }
    text.size_ = *size;
    text.text_[text.size_] = 0;
    return text;
}

/// The rows of a sheet and a pool, which have to outlive it. It cannot be copied, so that the sheet of a Tables stays
/// with its stores.
class Sheet {
  public:
    Sheet() = default;
    Sheet(const Sheet &) = delete;
    Sheet &operator=(const Sheet &) = delete;
    Sheet(Sheet &&) = default;
    Sheet &operator=(Sheet &&) = default;
    ~Sheet() = default;

    /// Finds the tables of a sheet, which is lent as bytes and need not be aligned. Refused if it is not whole words,
    /// the contents, the rows and the pool do not fit together, a tag is not known, the version does not fit its width,
    /// or the producer is no string; with Limit if it has 2^32 words or bytes of the pool, which the tables of no file
    /// have. Other rules of a sheet are not judged here. It costs a step for each word of the sheet.
    [[nodiscard]] static Got<Sheet> open(Lent sheet, Lent pool) noexcept {
        Sheet opened;
        opened.stores_ = detail::Stores(sheet.bytes(), pool.bytes());
        if (opened.stores_.count() > MOST || pool.bytes().size() > MOST) {
            return Outcome{Refusal::Limit, Stage::Call};
        }
        if (!opened.find_tables() || !opened.take_head()) {
            return Outcome{Refusal::Sheet, Stage::Call};
        }
        return opened;
    }

    /// How many numbers an index has.
    [[nodiscard]] std::size_t index_size() const noexcept {
        return strings().size() + types().size() + constants().size() + functions().size() + lists().size();
    }

    /// Fills a lent store, which has to outlive the sheet, so that each row is found at once by its number; Full if it
    /// has less room than index_size() says.
    Outcome index(span<std::uint32_t> store) noexcept {
        if (store.size() < index_size()) {
            return {Refusal::Full, Stage::Call};
        }
        fill(strings(), STRINGS, store);
        fill(types(), TYPES, store);
        fill(constants(), CONSTANTS, store);
        fill(functions(), FUNCTIONS, store);
        fill(lists(), LISTS, store);
        return {};
    }

    [[nodiscard]] Version version() const noexcept { return version_; }

    /// The number of the string that names the producer.
    [[nodiscard]] std::optional<std::uint64_t> producer() const noexcept { return producer_; }

    /// The stores, as they were lent.
    [[nodiscard]] Bytes bytes() const noexcept { return stores_.sheet(); }
    [[nodiscard]] Bytes pool() const noexcept { return stores_.pool(); }

    [[nodiscard]] Rows<detail::RunKind> strings() const noexcept { return rows<detail::RunKind>(STRINGS); }
    [[nodiscard]] Rows<detail::TypeKind> types() const noexcept { return rows<detail::TypeKind>(TYPES); }
    [[nodiscard]] Rows<detail::RunKind> constants() const noexcept { return rows<detail::RunKind>(CONSTANTS); }
    [[nodiscard]] Rows<detail::GlobalKind> globals() const noexcept { return rows<detail::GlobalKind>(GLOBALS); }
    [[nodiscard]] Rows<detail::FunctionKind> functions() const noexcept {
        return rows<detail::FunctionKind>(FUNCTIONS);
    }
    [[nodiscard]] Rows<detail::AttributeKind> attributes() const noexcept {
        return rows<detail::AttributeKind>(ATTRIBUTES);
    }
    /// The attribute ids of a function; an id is the number of an attribute and 1, and 0 is no attribute.
    [[nodiscard]] Rows<detail::ListKind> lists() const noexcept { return rows<detail::ListKind>(LISTS); }

    /// A row by its number; nothing if there is none.
    [[nodiscard]] std::optional<Bytes> string(std::uint64_t number) const noexcept { return strings().at(number); }
    [[nodiscard]] std::optional<Type> type(std::uint64_t number) const noexcept { return types().at(number); }
    [[nodiscard]] std::optional<Bytes> constant(std::uint64_t number) const noexcept { return constants().at(number); }
    [[nodiscard]] std::optional<Global> global(std::uint64_t number) const noexcept { return globals().at(number); }
    [[nodiscard]] std::optional<Function> function(std::uint64_t number) const noexcept {
        return functions().at(number);
    }
    [[nodiscard]] std::optional<Attribute> attribute(std::uint64_t number) const noexcept {
        return attributes().at(number);
    }
    [[nodiscard]] std::optional<Words> list(std::uint64_t number) const noexcept { return lists().at(number); }

    /// The text of a type, as `type_text` has it for this sheet.
    [[nodiscard]] Got<std::uint64_t> type_text(std::uint64_t number, Store out) const noexcept {
        return tikomuci::type_text(bytes(), number, out);
    }
    [[nodiscard]] Got<TypeText> type_text(std::uint64_t number, std::size_t most = TYPE_TEXT_BYTES) const noexcept {
        return tikomuci::type_text(bytes(), number, most);
    }

  private:
    enum Name : std::size_t { STRINGS, TYPES, CONSTANTS, GLOBALS, FUNCTIONS, ATTRIBUTES, LISTS, TABLES };

    struct Table {
        detail::Place first;
        std::uint64_t size = 0;
        detail::Index index;
    };

    static constexpr std::uint64_t MOST = 0xFFFFFFFF;
    static constexpr std::uint64_t POOL_LENGTH = 4;
    static constexpr std::uint64_t CONTENTS = 5;

    template <typename Kind>
    [[nodiscard]] Rows<Kind> rows(Name name) const noexcept {
        const Table &table = tables_[name];
        return Rows<Kind>(stores_, table.first, table.size, table.index);
    }

    /// The rows of a table at a place, which becomes the one behind them. False if the contents say another place, or
    /// a row is not there.
    template <typename Kind>
    bool find(Name name, detail::Place &at) noexcept {
        const std::uint64_t contents = CONTENTS + 2 * name;
        if (stores_.word(contents) != at.word) {
            return false;
        }
        tables_[name] = {at, stores_.word(contents + 1), {}};
        for (std::uint64_t left = tables_[name].size; left != 0; --left) {
            if (!Kind::fits(stores_, at)) {
                return false;
            }
            at = Kind::next(stores_, at);
        }
        return true;
    }

    /// The tables stand side by side from the contents to the sheet's end, and their runs fill the pool.
    bool find_tables() noexcept {
        detail::Place at{TIKOMUCI_CONTENTS_WORDS, 0};
        return stores_.sheet().size() % detail::WORD == 0 && stores_.has_words(0, TIKOMUCI_CONTENTS_WORDS) &&
               stores_.word(POOL_LENGTH) == stores_.pool().size() && find<detail::RunKind>(STRINGS, at) &&
               find<detail::TypeKind>(TYPES, at) && find<detail::RunKind>(CONSTANTS, at) &&
               find<detail::GlobalKind>(GLOBALS, at) && find<detail::FunctionKind>(FUNCTIONS, at) &&
               find<detail::AttributeKind>(ATTRIBUTES, at) && find<detail::ListKind>(LISTS, at) &&
               at.word == stores_.count() && at.byte == stores_.pool().size();
    }

    bool take_head() noexcept {
        const std::uint64_t major = stores_.word(0);
        const std::uint64_t minor = stores_.word(1);
        const std::uint64_t tag = stores_.word(2);
        const std::uint64_t producer = stores_.word(3);
        if (major > 0xFF || minor > 0xFF || tag > 0xFFFF || producer > strings().size()) {
            return false;
        }
        version_ = {static_cast<std::uint8_t>(major), static_cast<std::uint8_t>(minor),
                    static_cast<std::uint16_t>(tag)};
        if (producer != 0) {
            producer_ = producer - 1;
        }
        return true;
    }

    /// Puts the places of a table's rows at the front of a store, which becomes what is behind them.
    template <typename Kind>
    void fill(const Rows<Kind> &rows, Name name, span<std::uint32_t> &store) noexcept {
        for (auto row = rows.begin(); row != rows.end(); ++row) {
            store[row.number()] = static_cast<std::uint32_t>(Kind::key(row.place()));
        }
        tables_[name].index = store.first(rows.size());
        store = store.subspan(rows.size());
    }

    detail::Stores stores_;
    Version version_;
    std::optional<std::uint64_t> producer_;
    std::array<Table, TABLES> tables_{};
};

/// Reads the tables of a file into lent stores and opens them, as `read` and `Sheet::open` do.
[[nodiscard]] inline Got<Sheet> read_sheet(Input file, Store sheet, Store pool) noexcept {
    const Got<Size> size = read(file, sheet, pool);
    if (!size) {
        return size.outcome();
    }
    return Sheet::open(sheet.bytes().first(size->words * detail::WORD), pool.bytes().first(size->bytes));
}

class Tables;
[[nodiscard]] Got<Tables> read(Input file) noexcept;

/// The tables of a file, which no longer needs to be there. Nobody else reaches their stores.
class Tables {
  public:
    /// No tables, as those are that were moved from.
    Tables() = default;
    Tables(const Tables &) = delete;
    Tables &operator=(const Tables &) = delete;
    Tables(Tables &&other) noexcept { *this = std::move(other); }
    Tables &operator=(Tables &&other) noexcept {
        sheet_ = std::exchange(other.sheet_, Sheet());
        stores_ = std::exchange(other.stores_, nullptr);
        index_ = std::exchange(other.index_, nullptr);
        return *this;
    }
    ~Tables() = default;

    [[nodiscard]] const Sheet &sheet() const &noexcept { return sheet_; }
    const Sheet &sheet() const &&TIKOMUCI_DELETED("keep the tables in a variable: the sheet is a part of them");

  private:
    friend Got<Tables> read(Input file) noexcept;

    std::unique_ptr<std::uint64_t[]> stores_;
    std::unique_ptr<std::uint32_t[]> index_;
    Sheet sheet_;
};

/// Reads the tables of a file into stores that are as large as they have to be, with an index. Refusals are those of
/// the file, and Memory if there is none for the stores.
[[nodiscard]] inline Got<Tables> read(Input file) noexcept {
    const Got<Size> size = measure(file);
    if (!size) {
        return size.outcome();
    }
    const Outcome no_memory{Refusal::Memory, Stage::Call};
    Tables tables;
    const std::uint64_t pool_words = (size->bytes + detail::WORD - 1) / detail::WORD;
    tables.stores_.reset(new (std::nothrow) std::uint64_t[size->words + pool_words]);
    if (!tables.stores_) {
        return no_memory;
    }
    auto *const store = reinterpret_cast<std::uint8_t *>(tables.stores_.get());
    Got<Sheet> sheet =
        read_sheet(file, {store, size->words * detail::WORD}, {store + size->words * detail::WORD, size->bytes});
    if (!sheet) {
        return sheet.outcome();
    }
    tables.index_.reset(new (std::nothrow) std::uint32_t[sheet->index_size()]);
    if (!tables.index_) {
        return no_memory;
    }
    if (const Outcome indexed = sheet->index({tables.index_.get(), sheet->index_size()}); !indexed) {
        return indexed;
    }
    tables.sheet_ = std::move(*sheet);
    return tables;
}

}  // namespace TIKOMUCI_SPANS
}  // namespace tikomuci

#ifdef __cpp_lib_span
template <typename Int>
inline constexpr bool std::ranges::enable_borrowed_range<tikomuci::Numbers<Int>> = true;
template <typename Int>
inline constexpr bool std::ranges::enable_view<tikomuci::Numbers<Int>> = true;
template <typename Kind>
inline constexpr bool std::ranges::enable_borrowed_range<tikomuci::Rows<Kind>> = true;
template <typename Kind>
inline constexpr bool std::ranges::enable_view<tikomuci::Rows<Kind>> = true;
#endif

#endif
