// tikomuci.hpp: the calls of tikomuci.h over spans, for C++17 and later; tikomuci_cache.hpp has those of the cache.
//
// A Writer and a Reader keep the place between calls. A refused call leaves the place and the bytes as they were.
// Answers are [[nodiscard]], and the value of one is reached only where it has a name: no refusal is lost by silence.
// What hands out views takes no temporary. Nothing here allocates or throws.
#ifndef TIKOMUCI_HPP
#define TIKOMUCI_HPP

#include <cassert>
#include <cstddef>
#include <cstdint>
#include <cstring>
#include <functional>
#include <iterator>
#include <string_view>
#include <type_traits>
#include <utility>

#include "tikomuci.h"
#include "tikomuci_span.hpp"

// A compiler that can give a reason gives this one; others show the line on which it stands.
#if defined(__cpp_deleted_function) && __cpp_deleted_function >= 202403L
#define TIKOMUCI_DELETED(reason) = delete (reason)
#else
#define TIKOMUCI_DELETED(reason) = delete
#endif

namespace tikomuci {
inline namespace TIKOMUCI_SPANS {

using Bytes = span<const std::uint8_t>;
using Output = span<std::uint8_t>;

enum class Refusal : std::uint64_t {
    None = 0,
    Limit = TIKOMUCI_REFUSAL_LIMIT,
    Short = TIKOMUCI_REFUSAL_SHORT,
    Overlong = TIKOMUCI_REFUSAL_OVERLONG,
    Magic = TIKOMUCI_REFUSAL_MAGIC,
    Padding = TIKOMUCI_REFUSAL_PADDING,
    Bounds = TIKOMUCI_REFUSAL_BOUNDS,
    Producer = TIKOMUCI_REFUSAL_PRODUCER,
    TypeTag = TIKOMUCI_REFUSAL_TYPE_TAG,
    DebugTag = TIKOMUCI_REFUSAL_DEBUG_TAG,
    Hints = TIKOMUCI_REFUSAL_HINTS,
    Full = TIKOMUCI_REFUSAL_FULL,
    Sheet = TIKOMUCI_REFUSAL_SHEET,
    Start = TIKOMUCI_REFUSAL_START,
    Absent = TIKOMUCI_REFUSAL_ABSENT,
    NoSlot = TIKOMUCI_REFUSAL_NO_SLOT,
    Overlap = TIKOMUCI_REFUSAL_OVERLAP,
    Memory = TIKOMUCI_REFUSAL_MEMORY,
    Busy = TIKOMUCI_REFUSAL_BUSY,
};

enum class Stage : std::uint64_t {
    Limits = TIKOMUCI_STAGE_LIMITS,
    Header = TIKOMUCI_STAGE_HEADER,
    Sections = TIKOMUCI_STAGE_SECTIONS,
    String = TIKOMUCI_STAGE_STRING,
    Producer = TIKOMUCI_STAGE_PRODUCER,
    Type = TIKOMUCI_STAGE_TYPE,
    Constant = TIKOMUCI_STAGE_CONSTANT,
    Global = TIKOMUCI_STAGE_GLOBAL,
    Func = TIKOMUCI_STAGE_FUNC,
    Debug = TIKOMUCI_STAGE_DEBUG,
    Call = TIKOMUCI_STAGE_CALL,
};

enum class Section : std::uint64_t {
    String = TIKOMUCI_SECTION_STRING,
    Func = TIKOMUCI_SECTION_FUNC,
    Debug = TIKOMUCI_SECTION_DEBUG,
    Constant = TIKOMUCI_SECTION_CONSTANT,
    Type = TIKOMUCI_SECTION_TYPE,
    Global = TIKOMUCI_SECTION_GLOBAL,
    Producer = TIKOMUCI_SECTION_PRODUCER,
};

/// The number of a refusal, a stage, a section or a tag.
template <typename Enum, std::enable_if_t<std::is_enum_v<Enum>, int> = 0>
[[nodiscard]] constexpr std::uint64_t number_of(Enum value) noexcept {
    return static_cast<std::uint64_t>(value);
}

/// A name for programs and messages, and a line for people. The data() of each ends with a zero.
[[nodiscard]] constexpr std::string_view refusal_name(Refusal refusal) noexcept {
    return tikomuci_refusal_name(number_of(refusal));
}
[[nodiscard]] constexpr std::string_view refusal_text(Refusal refusal) noexcept {
    return tikomuci_refusal_text(number_of(refusal));
}
[[nodiscard]] constexpr std::string_view stage_name(Stage stage) noexcept {
    return tikomuci_stage_name(number_of(stage));
}
[[nodiscard]] constexpr std::string_view stage_text(Stage stage) noexcept {
    return tikomuci_stage_text(number_of(stage));
}

/// Whether a call was accepted, and if not, which refusal at which stage.
struct [[nodiscard]] Outcome {
    Refusal refusal = Refusal::None;
    Stage stage = Stage::Limits;

    constexpr explicit operator bool() const noexcept { return refusal == Refusal::None; }

    friend constexpr bool operator==(const Outcome &a, const Outcome &b) noexcept {
        return a.refusal == b.refusal && a.stage == b.stage;
    }
    friend constexpr bool operator!=(const Outcome &a, const Outcome &b) noexcept { return !(a == b); }
};

[[nodiscard]] constexpr Outcome outcome_of(const tikomuci_answer &answer) noexcept {
    return {static_cast<Refusal>(answer.refusal), static_cast<Stage>(answer.stage)};
}

namespace detail {

template <typename Expected, typename Value, typename Error>
using expects_t = std::enable_if_t<
    std::is_same_v<typename Expected::value_type, Value> && std::is_same_v<typename Expected::error_type, Error>, int>;

}  // namespace detail

/// What a call answers that has a value: the value, or a refusal and no value. It is reached by `*` and `->`, which
/// assert that the call was accepted, and only of an answer that has a name: one that nobody looked at has no value to
/// give. Without assertions the value of a refusal is an empty one, and never memory of somebody else.
template <typename Value>
class [[nodiscard]] Got {
  public:
    /// A refusal.
    Got(Outcome refused) noexcept : outcome_(refused) { assert(!refused); }
    Got(const Value &value) noexcept(std::is_nothrow_copy_constructible_v<Value>) : value_(value) {}
    Got(Value &&value) noexcept(std::is_nothrow_move_constructible_v<Value>) : value_(std::move(value)) {}

    explicit operator bool() const noexcept { return static_cast<bool>(outcome_); }
    [[nodiscard]] Outcome outcome() const noexcept { return outcome_; }

    [[nodiscard]] const Value &operator*() const &noexcept { return *accepted(this); }
    [[nodiscard]] Value &operator*() &noexcept { return *accepted(this); }
    const Value &operator*() const &&TIKOMUCI_DELETED("give the answer a name, and look at it first");
    [[nodiscard]] const Value *operator->() const &noexcept { return accepted(this); }
    [[nodiscard]] Value *operator->() &noexcept { return accepted(this); }
    const Value *operator->() const &&TIKOMUCI_DELETED("give the answer a name, and look at it first");

    /// The value, or another one in the place of a refusal.
    template <typename Other>
    [[nodiscard]] Value value_or(Other &&other) const & {
        return outcome_ ? value_ : static_cast<Value>(std::forward<Other>(other));
    }
    template <typename Other>
    [[nodiscard]] Value value_or(Other &&other) && {
        return outcome_ ? std::move(value_) : static_cast<Value>(std::forward<Other>(other));
    }

    /// As a std::expected<Value, Outcome>, or what a host has in its place with the same names.
    template <typename Expected, detail::expects_t<Expected, Value, Outcome> = 0>
    operator Expected() const & {
        return outcome_ ? Expected(value_) : Expected(typename Expected::unexpected_type(outcome_));
    }
    template <typename Expected, detail::expects_t<Expected, Value, Outcome> = 0>
    operator Expected() && {
        return outcome_ ? Expected(std::move(value_)) : Expected(typename Expected::unexpected_type(outcome_));
    }

  private:
    template <typename Self>
    static auto accepted(Self *self) noexcept -> decltype(&self->value_) {
        assert(self->outcome_);
        return &self->value_;
    }

    Outcome outcome_;
    Value value_{};
};

namespace detail {

template <typename Value>
inline constexpr bool is_byte = std::is_same_v<Value, std::uint8_t> || std::is_same_v<Value, std::byte>;

/// Whether a range has bytes, side by side, that a span of `Byte` can be of.
template <typename Range, typename Byte, bool = is_contiguous<Range>>
inline constexpr bool gives = false;

template <typename Range, typename Byte>
inline constexpr bool gives<Range, Byte, true> =
    is_byte<bare_t<element_t<Range>>> &&std::is_const_v<Byte> >= std::is_const_v<element_t<Range>>;

/// Bytes as a call takes them: any range of std::uint8_t or std::byte that stands side by side. Where the call's answer
/// is a part of them (`Kept`), a container that is gone behind the call is not taken.
template <typename Byte, bool Kept>
class Given {
  public:
    constexpr Given() noexcept = default;
    constexpr Given(Byte *data, std::size_t size) noexcept : bytes_(data, size) {}

    template <typename Range, std::enable_if_t<gives<Range, Byte> && (!Kept || stays<Range>), int> = 0>
    Given(Range &&range) noexcept : bytes_(reinterpret_cast<Byte *>(std::data(range)), std::size(range)) {}

    template <typename Range, std::enable_if_t<gives<Range, Byte> && Kept && !stays<Range>, int> = 0>
    Given(Range &&) TIKOMUCI_DELETED("keep the container in a variable: what the call hands out is a part of it");

    [[nodiscard]] constexpr span<Byte> bytes() const noexcept { return bytes_; }

  private:
    span<Byte> bytes_;
};

template <typename Bits, typename Float>
Bits bits_of(Float value) noexcept {
    static_assert(sizeof(Bits) == sizeof(Float), "a float and its bits have one size");
    Bits bits = 0;
    std::memcpy(&bits, &value, sizeof bits);
    return bits;
}

}  // namespace detail

/// What calls take: bytes that are looked at while the call runs; bytes that the answer is a part of; a store.
using Input = detail::Given<const std::uint8_t, false>;
using Lent = detail::Given<const std::uint8_t, true>;
using Store = detail::Given<std::uint8_t, true>;

/// Whether two spans share a byte. The library is proved for lent spans that do not.
[[nodiscard]] inline bool overlap(Bytes a, Bytes b) noexcept {
    const std::less<const std::uint8_t *> before;
    return !a.empty() && !b.empty() && before(a.data(), b.data() + b.size()) && before(b.data(), a.data() + a.size());
}

/// The outcome where lent spans overlap.
inline constexpr Outcome OVERLAPPING = {Refusal::Overlap, Stage::Call};

/// Writes numbers one after the other into a lent output.
class Writer {
  public:
    explicit Writer(Store out, std::uint64_t at = 0) noexcept : out_(out.bytes()), at_(at) {}

    Outcome byte(std::uint8_t value) noexcept { return moved(call(tikomuci_write_byte, value)); }
    Outcome varint(std::uint64_t value) noexcept { return moved(call(tikomuci_write_varint, value)); }
    Outcome signed_varint(std::int64_t value) noexcept { return moved(call(tikomuci_write_signed_varint, value)); }
    Outcome le_u8(std::uint8_t value) noexcept { return moved(call(tikomuci_write_le_u8, value)); }
    Outcome le_u16(std::uint16_t value) noexcept { return moved(call(tikomuci_write_le_u16, value)); }
    Outcome le_u32(std::uint32_t value) noexcept { return moved(call(tikomuci_write_le_u32, value)); }
    Outcome le_u64(std::uint64_t value) noexcept { return moved(call(tikomuci_write_le_u64, value)); }
    Outcome le_i32(std::int32_t value) noexcept { return moved(call(tikomuci_write_le_i32, value)); }
    Outcome le_i64(std::int64_t value) noexcept { return moved(call(tikomuci_write_le_i64, value)); }
    Outcome le_f32(float value) noexcept {
        return moved(call(tikomuci_write_le_f32, detail::bits_of<std::uint32_t>(value)));
    }
    Outcome le_f64(double value) noexcept { return moved(call(tikomuci_write_le_f64, bits(value))); }
    Outcome ap_float_f64(double value) noexcept { return moved(call(tikomuci_write_ap_float_f64, bits(value))); }
    Outcome ap_float_f8e4m3fn(double value) noexcept {
        return moved(call(tikomuci_write_ap_float_f8e4m3fn, bits(value)));
    }
    Outcome ap_float_f8e5m2(double value) noexcept { return moved(call(tikomuci_write_ap_float_f8e5m2, bits(value))); }

    /// OVERLAPPING if `data` overlaps the output, as of the two calls below.
    Outcome bytes(Input data) noexcept { return lent(tikomuci_write_bytes, data.bytes()); }
    Outcome le_var_size(span<const std::int32_t> values) noexcept {
        return lent(tikomuci_write_le_var_size_i32, values);
    }
    Outcome le_var_size(span<const std::int64_t> values) noexcept {
        return lent(tikomuci_write_le_var_size_i64, values);
    }

    Outcome align_to(std::uint64_t alignment) noexcept {
        const tikomuci_answer answer = call(tikomuci_align_to, required_alignment_, alignment);
        if (answer.refusal == 0) {
            required_alignment_ = answer.second;
        }
        return moved(answer);
    }

    [[nodiscard]] std::uint64_t tell() const noexcept { return at_; }
    [[nodiscard]] std::uint64_t required_alignment() const noexcept { return required_alignment_; }

  private:
    static std::uint64_t bits(double value) noexcept { return detail::bits_of<std::uint64_t>(value); }

    template <typename Call, typename... Values>
    tikomuci_answer call(Call function, Values... values) noexcept {
        return function(out_.data(), out_.size(), at_, values...);
    }

    template <typename Call, typename Value>
    Outcome lent(Call function, span<const Value> values) noexcept {
        if (overlap({reinterpret_cast<const std::uint8_t *>(values.data()), values.size_bytes()}, out_)) {
            return OVERLAPPING;
        }
        return moved(call(function, values.data(), values.size()));
    }

    Outcome moved(const tikomuci_answer &answer) noexcept {
        if (answer.refusal == 0) {
            at_ = answer.first;
        }
        return outcome_of(answer);
    }

    Output out_;
    std::uint64_t at_;
    std::uint64_t required_alignment_ = 1;
};

/// Reads numbers one after the other from lent bytes.
class Reader {
  public:
    explicit Reader(Lent data, std::uint64_t at = 0) noexcept : data_(data.bytes()), at_(at) {}

    Got<std::uint8_t> byte() noexcept { return got<std::uint8_t>(call(tikomuci_read_byte)); }
    Got<std::uint64_t> varint() noexcept { return got<std::uint64_t>(call(tikomuci_read_varint)); }
    Got<std::int64_t> signed_varint() noexcept { return got<std::int64_t>(call(tikomuci_read_signed_varint)); }
    Got<std::uint8_t> le_u8() noexcept { return got<std::uint8_t>(call(tikomuci_read_le_u8)); }
    Got<std::uint16_t> le_u16() noexcept { return got<std::uint16_t>(call(tikomuci_read_le_u16)); }
    Got<std::uint32_t> le_u32() noexcept { return got<std::uint32_t>(call(tikomuci_read_le_u32)); }
    Got<std::uint64_t> le_u64() noexcept { return got<std::uint64_t>(call(tikomuci_read_le_u64)); }
    Got<std::int32_t> le_i32() noexcept { return got<std::int32_t>(call(tikomuci_read_le_i32)); }
    Got<std::int64_t> le_i64() noexcept { return got<std::int64_t>(call(tikomuci_read_le_i64)); }

    /// The next `n` bytes, as a part of what was lent.
    Got<Bytes> bytes(std::uint64_t n) noexcept {
        const tikomuci_answer answer = call(tikomuci_read_bytes, n);
        if (answer.refusal != 0) {
            return outcome_of(answer);
        }
        at_ = answer.second;
        return data_.subspan(answer.first, n);
    }

    /// How many padding bytes were passed over.
    Got<std::uint64_t> skip_padding(std::uint64_t alignment) noexcept {
        return got<std::uint64_t>(call(tikomuci_skip_padding, alignment));
    }

    /// The numbers of a counted array, as the little-endian bytes that they are; a quarter or an eighth is their count.
    Got<Bytes> le_var_size_i32() noexcept { return counted(call(tikomuci_read_le_var_size_i32), 4); }
    Got<Bytes> le_var_size_i64() noexcept { return counted(call(tikomuci_read_le_var_size_i64), 8); }

    [[nodiscard]] std::uint64_t remaining() const noexcept {
        return tikomuci_remaining(data_.data(), data_.size(), at_);
    }
    [[nodiscard]] std::uint64_t tell() const noexcept { return at_; }

  private:
    template <typename Call, typename... Values>
    tikomuci_answer call(Call function, Values... values) noexcept {
        return function(data_.data(), data_.size(), at_, values...);
    }

    // The value stands in the answer as its bit pattern in its width, so the narrowing loses nothing.
    template <typename Value>
    Got<Value> got(const tikomuci_answer &answer) noexcept {
        if (answer.refusal != 0) {
            return outcome_of(answer);
        }
        at_ = answer.second;
        return static_cast<Value>(answer.first);
    }

    Got<Bytes> counted(const tikomuci_answer &answer, std::uint64_t width) noexcept {
        if (answer.refusal != 0) {
            return outcome_of(answer);
        }
        at_ = answer.second;
        const std::uint64_t size = answer.first * width;
        return data_.subspan(answer.second - size, size);
    }

    Bytes data_;
    std::uint64_t at_;
};

/// Overwrites a number at `offset`; Absent outside the buffer.
inline Outcome patch_u32(Store store, std::uint64_t offset, std::uint32_t value) noexcept {
    const Output buf = store.bytes();
    return outcome_of(tikomuci_patch_u32(buf.data(), buf.size(), offset, value));
}

inline Outcome patch_u64(Store store, std::uint64_t offset, std::uint64_t value) noexcept {
    const Output buf = store.bytes();
    return outcome_of(tikomuci_patch_u64(buf.data(), buf.size(), offset, value));
}

/// How large the sheet and the pool of a file are.
struct Size {
    std::uint64_t words = 0;
    std::uint64_t bytes = 0;

    friend constexpr bool operator==(const Size &a, const Size &b) noexcept {
        return a.words == b.words && a.bytes == b.bytes;
    }
    friend constexpr bool operator!=(const Size &a, const Size &b) noexcept { return !(a == b); }
};

namespace detail {

inline Got<Size> size_of(const tikomuci_answer &answer) noexcept {
    if (answer.refusal != 0) {
        return outcome_of(answer);
    }
    return Size{answer.first, answer.second};
}

inline Got<std::uint64_t> first_of(const tikomuci_answer &answer) noexcept {
    if (answer.refusal != 0) {
        return outcome_of(answer);
    }
    return answer.first;
}

using View = tikomuci_answer (*)(const std::uint8_t *, std::size_t, std::uint64_t);

/// A part of the file, or a refusal.
inline Got<Bytes> view_of(View view, Bytes file, std::uint64_t number) noexcept {
    const tikomuci_answer answer = view(file.data(), file.size(), number);
    if (answer.refusal != 0) {
        return outcome_of(answer);
    }
    return file.subspan(answer.first, answer.second);
}

}  // namespace detail

/// How large the stores have to be for the tables of a file, which is judged as a whole.
[[nodiscard]] inline Got<Size> measure(Input file) noexcept {
    return detail::size_of(tikomuci_measure(file.bytes().data(), file.bytes().size()));
}

/// Reads the tables of a file into lent stores; Full if one is too small, Overlap if two of the spans overlap. The
/// sheet's words are little-endian, wherever they stand.
[[nodiscard]] inline Got<Size> read(Input file, Store sheet, Store pool) noexcept {
    const Bytes from = file.bytes();
    const Output words = sheet.bytes();
    const Output bytes = pool.bytes();
    if (overlap(from, words) || overlap(from, bytes) || overlap(words, bytes)) {
        return OVERLAPPING;
    }
    return detail::size_of(
        tikomuci_read(from.data(), from.size(), words.data(), words.size(), bytes.data(), bytes.size()));
}

/// The string, the constant or the body of the function with this number, as a part of the file; Absent if there is
/// none. The whole file is judged each time.
[[nodiscard]] inline Got<Bytes> string(Lent file, std::uint64_t number) noexcept {
    return detail::view_of(tikomuci_string, file.bytes(), number);
}

[[nodiscard]] inline Got<Bytes> constant(Lent file, std::uint64_t number) noexcept {
    return detail::view_of(tikomuci_constant, file.bytes(), number);
}

[[nodiscard]] inline Got<Bytes> body(Lent file, std::uint64_t number) noexcept {
    return detail::view_of(tikomuci_body, file.bytes(), number);
}

/// The whole payload that counts for a section, as a part of the file; Absent if there is none. Only the header and the
/// way from section to section are judged.
[[nodiscard]] inline Got<Bytes> section(Lent file, std::uint64_t id) noexcept {
    return detail::view_of(tikomuci_section, file.bytes(), id);
}

[[nodiscard]] inline Got<Bytes> section(Lent file, Section id) noexcept { return section(file, number_of(id)); }

/// How many bytes the file of a sheet has. The sheet is judged as a whole, but for its pool.
[[nodiscard]] inline Got<std::uint64_t> image(Input sheet) noexcept {
    return detail::first_of(tikomuci_image(sheet.bytes().data(), sheet.bytes().size()));
}

/// Writes the file of a sheet and its pool into a lent output; Full if that is too small, Overlap if two of the spans
/// overlap. The sheet's words are little-endian, wherever they stand.
[[nodiscard]] inline Got<std::uint64_t> write(Input sheet, Input pool, Store out) noexcept {
    const Bytes words = sheet.bytes();
    const Bytes bytes = pool.bytes();
    const Output file = out.bytes();
    if (overlap(words, bytes) || overlap(words, file) || overlap(bytes, file)) {
        return OVERLAPPING;
    }
    return detail::first_of(
        tikomuci_write(words.data(), words.size(), bytes.data(), bytes.size(), file.data(), file.size()));
}

/// Puts the text of a type at the begin of a lent output: how many bytes it has; Absent if there is no such row, Full
/// if there is no room, Overlap if the spans overlap. The sheet is judged as a whole each time, but for its pool. The
/// stack that it takes grows with the output: TIKOMUCI_TYPE_TEXT_STACK.
[[nodiscard]] inline Got<std::uint64_t> type_text(Input sheet, std::uint64_t row, Store out) noexcept {
    const Bytes words = sheet.bytes();
    const Output text = out.bytes();
    if (overlap(words, text)) {
        return OVERLAPPING;
    }
    return detail::first_of(tikomuci_type_text(words.data(), words.size(), row, text.data(), text.size()));
}

/// The 8-bit code nearest to a value, ties to the even code.
[[nodiscard]] inline std::uint8_t f8e4m3fn(double value) noexcept {
    return tikomuci_f8e4m3fn(detail::bits_of<std::uint64_t>(value));
}
[[nodiscard]] inline std::uint8_t f8e5m2(double value) noexcept {
    return tikomuci_f8e5m2(detail::bits_of<std::uint64_t>(value));
}

}  // namespace TIKOMUCI_SPANS
}  // namespace tikomuci

#endif
