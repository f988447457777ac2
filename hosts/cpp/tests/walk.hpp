// Every row of a sheet, by each of the ways that lead to it. All bytes and numbers of a row are read, so that a guard
// page or a sanitizer sees one that is outside.
#ifndef TIKOMUCI_WALK_HPP
#define TIKOMUCI_WALK_HPP

#include <cstdint>
#include <optional>
#include <variant>
#include <vector>

#include "tikomuci_tables.hpp"

namespace walk {

// A number that all that was read has a part in.
class Digest {
  public:
    Digest &add(std::uint64_t number) {
        sum_ = (sum_ ^ number) * 0x100000001B3;
        return *this;
    }
    Digest &add(const std::optional<std::uint64_t> &number) { return add(number.has_value()).add(number.value_or(0)); }
    template <typename List>
    Digest &list(const List &numbers) {
        add(numbers.size());
        for (const auto number : numbers) {
            add(static_cast<std::uint64_t>(number));
        }
        return *this;
    }
    [[nodiscard]] std::uint64_t sum() const { return sum_; }

  private:
    std::uint64_t sum_ = 0xCBF29CE484222325;
};

struct Fields {
    Digest &of;

    void operator()(const tikomuci::Scalar &) const {}
    void operator()(const tikomuci::Pointer &t) const { of.add(t.flags).add(t.element).add(t.attribute); }
    void operator()(const tikomuci::Tile &t) const { of.add(t.element).list(t.shape); }
    void operator()(const tikomuci::TensorView &t) const {
        of.add(t.flags).add(t.element).list(t.shape).list(t.strides).add(t.attribute);
    }
    void operator()(const tikomuci::PartitionView &t) const {
        of.add(t.flags).list(t.shape).add(t.view).list(t.map).add(t.padding);
    }
    void operator()(const tikomuci::GatherScatterView &t) const {
        of.add(t.flags).list(t.shape).add(t.view).add(t.sparse).add(t.padding);
    }
    void operator()(const tikomuci::StridedView &t) const {
        of.add(t.flags).list(t.shape).list(t.strides).add(t.view).list(t.map).add(t.padding);
    }
    void operator()(const tikomuci::FuncType &t) const { of.list(t.inputs).list(t.results); }
};

inline std::uint64_t sum(tikomuci::Bytes row) { return Digest().list(row).sum(); }
inline std::uint64_t sum(const tikomuci::Words &row) { return Digest().list(row).sum(); }
inline std::uint64_t sum(const tikomuci::Global &row) {
    Digest of;
    of.add(row.name).add(row.type).add(row.constant).add(row.alignment).add(row.visibility).add(row.is_constant);
    return of.sum();
}
inline std::uint64_t sum(const tikomuci::Function &row) {
    return Digest().add(row.name).add(row.signature).add(row.flags).add(row.location).list(row.body).sum();
}
inline std::uint64_t sum(const tikomuci::Attribute &row) {
    return Digest().add(tikomuci::number_of(row.tag)).list(row.fields).sum();
}
inline std::uint64_t sum(const tikomuci::Type &row) {
    Digest of;
    of.add(tikomuci::number_of(row.tag));
    std::visit(Fields{of}, row.kind);
    return of.sum();
}

// The sums of all rows of all tables, each table behind its size.
using Sums = std::vector<std::uint64_t>;

template <typename Add>
Sums tables(const tikomuci::Sheet &sheet, Add add) {
    Sums sums;
    add(sums, sheet.strings());
    add(sums, sheet.types());
    add(sums, sheet.constants());
    add(sums, sheet.globals());
    add(sums, sheet.functions());
    add(sums, sheet.attributes());
    add(sums, sheet.lists());
    return sums;
}

inline Sums by_range(const tikomuci::Sheet &sheet) {
    return tables(sheet, [](Sums &sums, const auto &rows) {
        sums.push_back(rows.size());
        for (const auto &row : rows) {
            sums.push_back(sum(row));
        }
    });
}

// A row that is not there has the sum 0.
inline Sums by_number(const tikomuci::Sheet &sheet) {
    return tables(sheet, [](Sums &sums, const auto &rows) {
        sums.push_back(rows.size());
        for (std::uint64_t i = 0; i < rows.size(); ++i) {
            const auto row = rows.at(i);
            sums.push_back(row ? sum(*row) : 0);
        }
    });
}

// How many of the numbers behind the last row of each table have a row all the same.
inline std::size_t rows_outside(const tikomuci::Sheet &sheet) {
    const Sums found = tables(sheet, [](Sums &sums, const auto &rows) {
        for (const std::uint64_t past : {std::uint64_t{0}, std::uint64_t{1}, std::uint64_t{1} << 61, ~rows.size()}) {
            if (rows.at(rows.size() + past)) {
                sums.push_back(past);
            }
        }
    });
    return found.size();
}

}  // namespace walk

#endif
