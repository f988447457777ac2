#include "types.hpp"

#include <algorithm>
#include <charconv>
#include <functional>
#include <limits>
#include <type_traits>

#include "escape.hpp"

namespace command {

namespace {

using tikomuci::Bytes;
using tikomuci::Output;

using RowNumbers = std::span<const std::uint64_t>;

constexpr std::size_t WORD = 8;
constexpr std::uint64_t NO_ROW = std::numeric_limits<std::uint64_t>::max();
// The tables of a sheet behind its types.
constexpr int TABLES_BEHIND = 5;
constexpr std::size_t SCALAR_BYTES = std::string_view("i1").size();
constexpr std::size_t OTHER_BYTES = std::string_view("ptr<>").size();

// Each number of a type that a type has. False if there are too many, or `put` says that it is enough.
template <typename Put>
bool each_name(const tikomuci::Type &type, std::size_t most, Put put) {
    const auto all = [&](const tikomuci::Words &names) { return std::all_of(names.begin(), names.end(), put); };
    return std::visit(
        [&](const auto &kind) {
            if constexpr (requires { kind.element; }) {
                return put(kind.element);
            } else if constexpr (requires { kind.view; }) {
                return put(kind.view);
            } else if constexpr (requires { kind.inputs; }) {
                return kind.inputs.size() + kind.results.size() <= most && all(kind.inputs) && all(kind.results);
            } else {
                return true;
            }
        },
        type.kind);
}

// Puts the words of a sheet that has types and nothing else. Each row names the others by the numbers that they have
// here, and one that is no earlier row by a number that no row has. What has no room is not put, and makes no sheet.
class Excerpt {
  public:
    // These rows, the last first.
    Excerpt(Output words, RowNumbers rows)
        : words_(words), rows_(rows), writer_(words, WORD * TIKOMUCI_CONTENTS_WORDS) {}

    void row(std::uint64_t number, const tikomuci::Type &type) {
        const std::uint64_t at = writer_.tell();
        row_ = number;
        word(0).word(number_of(type.tag));
        std::visit([this](const auto &kind) { fields(kind); }, type.kind);
        good_ = good_ && tikomuci::patch_u64(words_, at, (writer_.tell() - at) / WORD - 1);
    }

    // The sheet of these rows; nothing if there was no room.
    Bytes sheet(tikomuci::Version version) {
        const std::uint64_t size = writer_.tell();
        writer_ = tikomuci::Writer(words_);
        word(version.major).word(version.minor).word(version.tag).word(0).word(0);
        word(TIKOMUCI_CONTENTS_WORDS).word(0).word(TIKOMUCI_CONTENTS_WORDS).word(rows_.size());
        for (int table = 0; table < TABLES_BEHIND; ++table) {
            word(size / WORD).word(0);
        }
        return good_ ? Bytes(words_).first(size) : Bytes();
    }

  private:
    Excerpt &word(std::uint64_t value) {
        good_ = good_ && writer_.le_u64(value);
        return *this;
    }

    Excerpt &last(const std::optional<std::uint64_t> &value) { return word(value.value_or(0)); }

    Excerpt &name(std::uint64_t row) {
        const auto place = std::find(rows_.begin(), rows_.end(), row);
        return word(row < row_ ? static_cast<std::uint64_t>(rows_.end() - place) - 1 : NO_ROW);
    }

    template <typename List, typename Put>
    Excerpt &counted(const List &list, Put put) {
        word(list.size());
        for (auto at = list.begin(); at != list.end() && good_; ++at) {
            put(*at);
        }
        return *this;
    }

    template <typename Int>
    Excerpt &list(const tikomuci::Numbers<Int> &list) {
        return counted(list, [this](Int value) { word(static_cast<std::make_unsigned_t<Int>>(value)); });
    }

    Excerpt &names(const tikomuci::Words &rows) {
        return counted(rows, [this](std::uint64_t row) { name(row); });
    }

    void fields(const tikomuci::Scalar &) {}
    void fields(const tikomuci::Pointer &t) { word(t.flags).name(t.element).last(t.attribute); }
    void fields(const tikomuci::Tile &t) { name(t.element).list(t.shape); }
    void fields(const tikomuci::TensorView &t) {
        word(t.flags).name(t.element).list(t.shape).list(t.strides).last(t.attribute);
    }
    // Its map is no part of the text, and may be long.
    void fields(const tikomuci::PartitionView &t) {
        word(t.flags).list(t.shape).name(t.view).list(tikomuci::I32s()).last(t.padding);
    }
    void fields(const tikomuci::GatherScatterView &t) {
        word(t.flags).list(t.shape).name(t.view).word(t.sparse).last(t.padding);
    }
    void fields(const tikomuci::StridedView &t) {
        word(t.flags).list(t.shape).list(t.strides).name(t.view).list(t.map).last(t.padding);
    }
    void fields(const tikomuci::FuncType &t) { names(t.inputs).names(t.results); }

    Output words_;
    RowNumbers rows_;
    tikomuci::Writer writer_;
    std::uint64_t row_ = 0;
    bool good_ = true;
};

}  // namespace

std::string_view TypeTexts::text(std::uint64_t row) {
    if (!gather(row)) {
        return number(row);
    }
    const RowNumbers rows(rows_.data(), count_);
    Excerpt excerpt(words_, rows);
    for (auto at = rows.rbegin(); at != rows.rend(); ++at) {
        excerpt.row(*at, sheet_.type(*at).value_or(tikomuci::Type{}));
    }
    const auto size = tikomuci::type_text(excerpt.sheet(sheet_.version()), count_ - 1, text_);
    return size ? text_of_bytes(Bytes(text_).first(*size)) : number(row);
}

// Finds the rows that a text is made of. What is added is earlier than the row that names it, and comes behind it here.
// False if the text is too long: of a scalar at least `i1` is put, and of any other type `ptr<>`.
bool TypeTexts::gather(std::uint64_t row) {
    std::size_t least = 0;
    count_ = 0;
    add(row);
    for (std::size_t at = 0; at < count_; ++at) {
        const auto type = sheet_.type(rows_[at]);
        const auto add_earlier = [&](std::uint64_t named) { return named >= rows_[at] || add(named); };
        if (!type || !each_name(*type, LONGEST, add_earlier)) {
            return false;
        }
        least += std::holds_alternative<tikomuci::Scalar>(type->kind) ? SCALAR_BYTES : OTHER_BYTES;
        if (least > LONGEST) {
            return false;
        }
    }
    return true;
}

bool TypeTexts::add(std::uint64_t row) {
    const auto end = rows_.begin() + static_cast<std::ptrdiff_t>(count_);
    const auto place = std::lower_bound(rows_.begin(), end, row, std::greater<>());
    if (place != end && *place == row) {
        return true;
    }
    if (count_ == rows_.size()) {
        return false;
    }
    std::copy_backward(place, end, end + 1);
    *place = row;
    ++count_;
    return true;
}

std::string_view TypeTexts::number(std::uint64_t row) {
    auto *const text = reinterpret_cast<char *>(text_.data());
    text[0] = '#';
    return {text, std::to_chars(text + 1, text + text_.size(), row).ptr};
}

}  // namespace command
