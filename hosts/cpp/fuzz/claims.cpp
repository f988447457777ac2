// The claims that several fuzz targets make.

#include "claims.hpp"

namespace fuzz {

namespace {

constexpr std::uint8_t OTHER = static_cast<std::uint8_t>(~CANARY);
constexpr std::size_t HEAD = 3;
constexpr std::size_t POOL_LENGTH_WORD = 4;
constexpr std::size_t LONGEST_POOL = 4096;

// The sheet's store is no whole words, and the bytes behind its last word stay.
Stores filled(Bytes file, Size size, std::uint8_t fill) {
    Store sheet(size.words * 8 + 7, fill);
    Store pool(size.bytes + 1, fill);
    const auto got = tikomuci::read(file, sheet.lent(), pool.lent());
    claim(got.outcome() == Outcome{} && *got == size, "read answers what measure answers");
    claim(sheet.kept_but(size.words * 8) && pool.kept_but(size.bytes), "reading changes no byte outside the result");
    return {sheet.first(size.words * 8), pool.first(size.bytes)};
}

Wire written(Bytes sheet, Bytes pool, std::uint64_t size, std::uint8_t fill) {
    Store out(size + 1, fill);
    const auto got = tikomuci::write(sheet, pool, out.lent());
    claim(got.outcome() == Outcome{} && *got == size, "write answers what image answers");
    claim(out.kept_but(size), "writing changes no byte outside the image");
    return out.first(size);
}

}  // namespace

std::optional<std::uint64_t> pool_length(Bytes sheet) {
    const auto word = tikomuci::Reader(sheet, 8 * POOL_LENGTH_WORD).le_u64();
    return word ? std::optional(*word) : std::nullopt;
}

Stores handed(Bytes input) {
    if (input.size() < HEAD) {
        return {};
    }
    const Bytes rest = input.subspan(HEAD);
    const std::size_t size = std::min<std::size_t>(rest.size(), tikomuci::Reader(input, 1).le_u16().value_or(0));
    const auto end = rest.begin() + static_cast<std::ptrdiff_t>(size);
    Stores stores{Wire(rest.begin(), end), Wire(end, rest.end())};
    const std::uint64_t length = pool_length(stores.sheet).value_or(0);
    if ((input[0] & 1) != 0 && length <= LONGEST_POOL) {
        stores.pool.resize(length, CANARY);
    }
    return stores;
}

Stores read_whole(Bytes file, Size size) {
    const Stores stores = filled(file, size, CANARY);
    const Stores other = filled(file, size, OTHER);
    claim(stores.sheet == other.sheet && stores.pool == other.pool, "reading fills the whole result");
    // Nothing lies around these stores: an address sanitizer sees one byte outside.
    Stores exact{Wire(size.words * 8), Wire(size.bytes)};
    claim(tikomuci::read(file, exact.sheet, exact.pool).outcome() == Outcome{}, "stores of the measured size suffice");
    claim(stores.sheet == exact.sheet && stores.pool == exact.pool, "reading twice gives the same tables");
    read_refused(file, size.words * 8 - 8, size.bytes, FULL);
    read_refused(file, size.words * 8 - 1, size.bytes, FULL);
    if (size.bytes != 0) {
        read_refused(file, size.words * 8, size.bytes - 1, FULL);
    }
    return stores;
}

void read_refused(Bytes file, std::size_t sheet_size, std::size_t pool_size, Outcome wanted) {
    Store sheet(sheet_size);
    Store pool(pool_size);
    const tikomuci_answer got = tikomuci_read(file.data(), file.size(), sheet.lent().data(), sheet.lent().size(),
                                              pool.lent().data(), pool.lent().size());
    claim(tikomuci::outcome_of(got) == wanted,
          "a reading is refused with the number and the stage that it should have");
    claim(got.first == 0 && got.second == 0, "a refused reading has no other data");
    claim(sheet.kept_but(0) && pool.kept_but(0), "a refused reading changes no byte");
}

Wire write_whole(Bytes sheet, Bytes pool, std::uint64_t size) {
    const Wire image = written(sheet, pool, size, CANARY);
    claim(image == written(sheet, pool, size, OTHER), "writing fills the whole image");
    Wire exact(size);
    claim(tikomuci::write(sheet, pool, exact).outcome() == Outcome{}, "an output of the image's size suffices");
    claim(image == exact, "writing twice gives the same image");
    write_refused(sheet, pool, size - 1, FULL);
    return image;
}

void write_refused(Bytes sheet, Bytes pool, std::size_t size, Outcome wanted) {
    Store out(size);
    const tikomuci_answer got =
        tikomuci_write(sheet.data(), sheet.size(), pool.data(), pool.size(), out.lent().data(), out.lent().size());
    claim(tikomuci::outcome_of(got) == wanted,
          "a writing is refused with the number and the stage that it should have");
    claim(got.first == 0 && got.second == 0, "a refused writing has no other data");
    claim(out.kept_but(0), "a refused writing changes no byte");
}

void written_and_back(Bytes sheet, Bytes pool) {
    const auto size = tikomuci::image(sheet);
    claim(size.outcome() == Outcome{}, "a sheet that was read or written has an image");
    const Wire image = write_whole(sheet, pool, *size);
    const auto measured = tikomuci::measure(image);
    claim(measured.outcome() == Outcome{}, "an image is accepted");
    const Stores again = read_whole(image, *measured);
    claim(same(again.sheet, sheet) && same(again.pool, pool), "an image reads back as what was written");
    claim(write_whole(again.sheet, again.pool, *size) == image, "what was read back is written as the same image");
}

}  // namespace fuzz
