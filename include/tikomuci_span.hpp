// tikomuci_span.hpp: tikomuci::span, which is std::span where the library has it, and else the part of it that a host
// of these headers needs, for C++17.
#ifndef TIKOMUCI_SPAN_HPP
#define TIKOMUCI_SPAN_HPP

#include <cassert>
#include <cstddef>
#include <iterator>
#include <type_traits>
#include <utility>
#if defined(__has_include)
#if __has_include(<version>)
#include <version>
#endif
#endif

// What these headers define differs with the span that they are over. Its names do too, so that objects of both kinds
// can be linked together.
#ifdef __cpp_lib_span
#include <span>
#define TIKOMUCI_SPANS over_std_span
#else
#define TIKOMUCI_SPANS over_own_span
#endif

namespace tikomuci {
inline namespace TIKOMUCI_SPANS {

namespace detail {

template <typename Range>
using bare_t = std::remove_cv_t<std::remove_reference_t<Range>>;

template <typename Range>
using element_t = std::remove_pointer_t<decltype(std::data(std::declval<Range &>()))>;

/// Whether a range has its elements side by side.
template <typename Range, typename = void>
inline constexpr bool is_contiguous = false;

template <typename Range>
inline constexpr bool
    is_contiguous<Range, std::void_t<element_t<Range>, decltype(std::size(std::declval<Range &>()))>> = true;

}  // namespace detail

#ifdef __cpp_lib_span

template <typename Value>
using span = std::span<Value>;

/// Whether elements stay when a range of this type is gone, as those of a span do. A host can say so of a span of its
/// own: template <> inline constexpr bool tikomuci::is_borrowed<host::Span> = true;
template <typename Range>
inline constexpr bool is_borrowed = std::ranges::enable_borrowed_range<Range>;

#else

template <typename Value>
class span;

template <typename Range>
inline constexpr bool is_borrowed = false;

template <typename Value>
inline constexpr bool is_borrowed<span<Value>> = true;

#endif

namespace detail {

/// Whether the elements of what is passed are still there when the call has ended.
template <typename Range>
inline constexpr bool stays = std::is_lvalue_reference_v<Range> || is_borrowed<bare_t<Range>>;

}  // namespace detail

#ifndef __cpp_lib_span

namespace detail {

template <typename Range, typename Value, bool = is_contiguous<Range>>
inline constexpr bool spans = false;

template <typename Range, typename Value>
inline constexpr bool spans<Range, Value, true> = std::is_convertible_v<element_t<Range> (*)[], Value (*)[]> &&
                                                  (std::is_const_v<Value> || stays<Range>);

}  // namespace detail

/// A pointer and a size, with std::span's names.
template <typename Value>
class span {
  public:
    using element_type = Value;
    using value_type = std::remove_cv_t<Value>;
    using size_type = std::size_t;
    using iterator = Value *;

    constexpr span() noexcept = default;
    constexpr span(Value *data, std::size_t size) noexcept : data_(data), size_(size) {}

    template <typename Range, std::enable_if_t<detail::spans<Range, Value>, int> = 0>
    constexpr span(Range &&range) noexcept : span(std::data(range), std::size(range)) {}

    [[nodiscard]] constexpr Value *data() const noexcept { return data_; }
    [[nodiscard]] constexpr std::size_t size() const noexcept { return size_; }
    [[nodiscard]] constexpr std::size_t size_bytes() const noexcept { return size_ * sizeof(Value); }
    [[nodiscard]] constexpr bool empty() const noexcept { return size_ == 0; }
    [[nodiscard]] constexpr Value *begin() const noexcept { return data_; }
    [[nodiscard]] constexpr Value *end() const noexcept { return data_ + size_; }

    [[nodiscard]] constexpr Value &operator[](std::size_t i) const noexcept {
        assert(i < size_);
        return data_[i];
    }
    [[nodiscard]] constexpr Value &front() const noexcept { return (*this)[0]; }
    [[nodiscard]] constexpr Value &back() const noexcept { return (*this)[size_ - 1]; }

    [[nodiscard]] constexpr span first(std::size_t count) const noexcept { return subspan(0, count); }
    [[nodiscard]] constexpr span last(std::size_t count) const noexcept {
        assert(count <= size_);
        return subspan(size_ - count, count);
    }
    [[nodiscard]] constexpr span subspan(std::size_t from) const noexcept {
        assert(from <= size_);
        return {data_ + from, size_ - from};
    }
    [[nodiscard]] constexpr span subspan(std::size_t from, std::size_t count) const noexcept {
        assert(from <= size_ && count <= size_ - from);
        return {data_ + from, count};
    }

  private:
    Value *data_ = nullptr;
    std::size_t size_ = 0;
};

#endif

}  // namespace TIKOMUCI_SPANS
}  // namespace tikomuci

#endif
