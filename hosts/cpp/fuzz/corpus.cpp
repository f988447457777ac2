// corpus FOLDER: writes the files that the fuzz targets start from, FOLDER/file/*, FOLDER/sheet/* and FOLDER/cache/*.
// Each run writes the same bytes.

#include <cstdio>
#include <cstdlib>
#include <exception>
#include <filesystem>
#include <fstream>
#include <stdexcept>
#include <string>
#include <vector>

#include "../tests/check.hpp"
#include "tikomuci_builder.hpp"

namespace {

using tikomuci::Builder;
using tikomuci::TypeTag;

constexpr std::uint8_t FIRST_WITH_FLAGS = 3;

struct Seed {
    std::string name;
    Builder tables;
};

Builder made(std::uint8_t minor) { return Builder({13, minor, 0}); }

Builder strings() {
    Builder tables = made(1);
    tables.string("a");
    tables.string("");
    tables.string("bc");
    return tables;
}

Builder named() {
    Builder tables = strings();
    tables.producer(2);
    return tables;
}

// The sixteen scalars and the token: the types that are well-formed without a field.
Builder scalars() {
    Builder tables = made(4);
    for (unsigned number = 0; number < 256; ++number) {
        const auto tag = static_cast<TypeTag>(number);
        Builder alone = made(4);
        alone.scalar(tag);
        if (alone.file()) {
            tables.scalar(tag);
        }
    }
    return tables;
}

// The types that have fields. A version below 13.4 has no attributes here.
Builder pointers(std::uint8_t minor) {
    const bool flags = minor > FIRST_WITH_FLAGS;
    Builder tables = made(minor);
    tables.pointer(300);
    tables.pointer(1, flags ? std::optional<std::uint64_t>(7) : std::nullopt);
    tables.tile(2, {8, -1});
    tables.tensor_view(0, {4}, {1});
    tables.tensor_view(0, {}, {}, flags ? std::optional<std::uint64_t>(3) : std::nullopt);
    return tables;
}

// A partition's padding is a varint below 13.3 and a byte from then on.
Builder views(std::uint8_t minor) {
    Builder tables = made(minor);
    tables.partition_view({2}, 0, {});
    tables.partition_view({2, -3}, 4, {0}, minor < FIRST_WITH_FLAGS ? 300 : 9);
    tables.gather_scatter_view({5}, 4, 1);
    tables.gather_scatter_view({}, 4, 0, 2);
    tables.strided_view({6}, {7}, 4, {-8});
    tables.strided_view({}, {}, 4, {}, 255, 2);
    tables.func({0, 1}, {3});
    tables.func({}, {});
    return tables;
}

// Types inside types: one of each kind, what is not there, and one whose text is far longer than all others.
Builder nested() {
    Builder tables = made(4);
    const std::uint64_t i1 = tables.scalar(TypeTag::I1);
    const std::uint64_t pointer = tables.pointer(tables.tile(i1, {2, 4}), 1);
    const std::uint64_t view = tables.tensor_view(pointer, {std::numeric_limits<std::int64_t>::min(), 4}, {4, 1});
    tables.partition_view({8, 8}, view, {0, 1}, 1);
    tables.gather_scatter_view({8}, view, 0);
    tables.strided_view({8}, {-1}, view, {0});
    std::uint64_t inner = tables.func({pointer, FAR}, {view});
    for (int level = 0; level < 6; ++level) {
        inner = tables.func({inner, inner, inner, inner}, {inner});
    }
    return tables;
}

Builder constants() {
    Builder tables = made(4);
    tables.constant(Wire{0xDE, 0xAD, 0xBE});
    tables.constant({});
    tables.constant(Wire(9, 0xFF));
    tables.constant(Wire{0});
    return tables;
}

// Visibility and the constant flag are there from 13.3 on.
Builder globals(std::uint8_t minor) {
    const bool flags = minor >= FIRST_WITH_FLAGS;
    Builder tables = made(minor);
    tables.global({0, 1, 2, 16, flags ? 1U : 0U, flags});
    tables.global({FAR, 300, 0, 0, flags ? 255U : 0U, false});
    return tables;
}

Builder functions() {
    Builder tables = made(4);
    tables.function({0, 0, 2, 1, Wire{0x0A, 0x0B}});
    tables.function({1, 300, 1, FAR, {}});
    tables.function({0, 0, 0xFB, 0, Wire(130, 0x11)});
    return tables;
}

Builder attributes() {
    Builder tables = made(4);
    tables.unknown();
    tables.di_compile_unit(101);
    tables.di_file(201, 202);
    tables.di_lexical_block(301, 302, 303, 304);
    tables.di_loc(401, 402, 403, 404);
    tables.di_subprogram(501, 502, 503, 504, 505, 506);
    tables.call_site(601, 602);
    return tables;
}

Builder lists() {
    Builder tables = made(4);
    tables.list({1, 2});
    tables.list({});
    tables.list({FAR});
    return tables;
}

// A row in every table.
Builder every_row() {
    Builder tables = made(4);
    const std::uint64_t k = tables.string("k");
    const std::uint64_t name = tables.string("main");
    tables.producer(name);
    const std::uint64_t i32 = tables.scalar(TypeTag::I32);
    const std::uint64_t signature = tables.func({i32}, {});
    const std::uint64_t constant = tables.constant(Wire{0xDE, 0xAD, 0xBE});
    tables.global({k, i32, constant, 16, 1, true});
    const std::uint64_t location = tables.di_file(k, name);
    tables.function({name, signature, TIKOMUCI_FUNCTION_KERNEL, location, Wire{0x0A, 0x0B, 0x0C, 0x0D}});
    tables.list({location});
    return tables;
}

std::vector<Seed> seeds() {
    std::vector<Seed> seeds = {
        {"nothing", made(4)},         {"strings", strings()},     {"producer", named()},
        {"scalars", scalars()},       {"constants", constants()}, {"globals-13.2", globals(2)},
        {"globals-13.3", globals(3)}, {"functions", functions()}, {"attributes", attributes()},
        {"lists", lists()},           {"every", every_row()},     {"nested", nested()},
    };
    for (const std::uint8_t minor : {std::uint8_t{1}, std::uint8_t{3}, std::uint8_t{4}}) {
        seeds.push_back({"pointers-13." + std::to_string(minor), pointers(minor)});
        seeds.push_back({"views-13." + std::to_string(minor), views(minor)});
    }
    return seeds;
}

Wire file_of(const Seed &seed) {
    const auto file = seed.tables.file();
    if (!file) {
        throw std::logic_error(seed.name + " is not well-formed");
    }
    return *file;
}

// An input of the sheet target: flags, the sheet's length, the sheet and the pool.
Wire handed(std::uint8_t flags, const Wire &sheet, const Wire &pool) {
    Wire input = {flags, static_cast<std::uint8_t>(sheet.size()), static_cast<std::uint8_t>(sheet.size() >> 8)};
    input.insert(input.end(), sheet.begin(), sheet.end());
    input.insert(input.end(), pool.begin(), pool.end());
    return input;
}

// Two strings, the first of this length: too long for the second's start or for any file, and there is no pool.
Wire far_start(std::uint64_t length) {
    Builder tables = made(4);
    tables.string("");
    tables.string("");
    Wire sheet = tables.sheet();
    for (const std::uint64_t word : {4, TIKOMUCI_CONTENTS_WORDS}) {
        if (!tikomuci::patch_u64(sheet, 8 * word, length)) {
            throw std::logic_error("a sheet without strings");
        }
    }
    return handed(0, sheet, {});
}

// An input of the cache target: the number of slots and their size, and then calls and damage, one after the other. An
// instance is a byte, and those from 128 on are counted from the largest number down.
class History {
  public:
    enum Slots : std::uint8_t { Cache = 0, Session = 1 };
    enum File : std::uint8_t { Raw = 0, Fitting = 1, TooLarge = 2, Plain = 3 };

    History(Slots slots, std::uint8_t slot_size) : input_({slots, slot_size}) {}

    // A file with a constant of this length and these bytes.
    History &put(std::uint8_t instance, std::uint8_t length, std::uint8_t byte, File file = Plain) {
        return add({0, instance, file, length, byte});
    }
    History &put_raw(std::uint8_t instance, const Wire &file) {
        add({0, instance, Raw, static_cast<std::uint8_t>(file.size())});
        return add(file);
    }
    History &fetch(std::uint8_t instance) { return add({1 + 8, instance}); }
    History &drop(std::uint8_t instance) { return add({6, instance}); }
    History &damage_word(std::uint8_t word, std::uint8_t value) { return add({7, 3, 0, word, value}); }
    History &damage_slot(std::uint8_t place, std::uint8_t byte) { return add({7, 0, 0, place, byte}); }

    [[nodiscard]] const Wire &input() const { return input_; }

  private:
    History &add(const Wire &bytes) {
        input_.insert(input_.end(), bytes.begin(), bytes.end());
        return *this;
    }

    Wire input_;
};

// More instances than slots: all are taken, two are freed and taken again.
History full(History::Slots slots, std::uint8_t count) {
    History history(slots, 120);
    for (unsigned i = 0; i < count + 2U; ++i) {
        const auto number = static_cast<std::uint8_t>(i);
        history.put(static_cast<std::uint8_t>(i % 2 == 0 ? i : 255 - i), static_cast<std::uint8_t>(i % 7), number);
    }
    history.drop(4).drop(252).put(200, 5, 1).fetch(200).put(2, 6, 2).fetch(2);
    return history;
}

History replaced() {
    History history(History::Cache, 110);
    history.put(0, 40, 1).fetch(0).put(0, 3, 2).fetch(0).put(128, 1, 3).drop(0).fetch(0).put(5, 2, 4).fetch(128);
    return history;
}

History sizes() {
    History history(History::Session, 90);
    history.put(1, 2, 3, History::Fitting).fetch(1).put(2, 2, 3, History::TooLarge).fetch(2).put(1, 0, 0).fetch(1);
    return history;
}

History raw_files() {
    const Wire file = every_row().file().value_or(Wire());
    History history(History::Cache, 250);
    history.put_raw(1, file).fetch(1).put_raw(2, Wire(file.begin(), file.begin() + 50)).put_raw(3, {}).fetch(3);
    return history;
}

// A mark, an instance and a length that are others; and a slot in which a file was damaged.
History damaged(History::Slots slots) {
    History history(slots, 100);
    history.put(7, 4, 1).put(8, 4, 2).damage_word(0, 9).fetch(7).damage_word(4, 7).fetch(8).damage_word(4, 8).fetch(8);
    history.damage_word(2, 101).drop(7).damage_word(2, 60).fetch(7).damage_slot(13, 0).fetch(7).drop(7).fetch(8);
    return history;
}

void save(const std::filesystem::path &path, const Wire &bytes) {
    std::ofstream file(path, std::ios::binary);
    file.write(reinterpret_cast<const char *>(bytes.data()), static_cast<std::streamsize>(bytes.size()));
    if (!file.flush()) {
        throw std::runtime_error(path.string() + " cannot be written");
    }
}

void save_all(const std::filesystem::path &folder) {
    const std::filesystem::path files = folder / "file";
    const std::filesystem::path sheets = folder / "sheet";
    const std::filesystem::path caches = folder / "cache";
    for (const std::filesystem::path &kind : {files, sheets, caches}) {
        std::filesystem::create_directories(kind);
    }
    for (const Seed &seed : seeds()) {
        save(files / seed.name, file_of(seed));
    }
    // A sheet's version is a word like any other, which the fuzzer changes: one sheet for each kind of row is enough.
    for (const auto &[name, tables] :
         {Seed{"every", every_row()}, Seed{"pointers", pointers(4)}, Seed{"views", views(2)}, Seed{"nested", nested()},
          Seed{"globals", globals(3)}, Seed{"functions", functions()}, Seed{"attributes", attributes()},
          Seed{"lists", lists()}}) {
        save(sheets / name, handed(1, tables.sheet(), tables.pool()));
    }
    save(sheets / "start", far_start(std::uint64_t{1} << 32));
    save(sheets / "limit", far_start(std::uint64_t{1} << 31));
    save(caches / "full-16", full(History::Cache, TIKOMUCI_CACHE_SLOTS).input());
    save(caches / "full-64", full(History::Session, TIKOMUCI_SESSION_SLOTS).input());
    save(caches / "replaced", replaced().input());
    save(caches / "sizes", sizes().input());
    save(caches / "raw", raw_files().input());
    save(caches / "damaged-16", damaged(History::Cache).input());
    save(caches / "damaged-64", damaged(History::Session).input());
}

}  // namespace

int main(int count, char **arguments) {
    if (count != 2) {
        std::fprintf(stderr, "corpus takes one FOLDER\n");
        return EXIT_FAILURE;
    }
    try {
        save_all(arguments[1]);
    } catch (const std::exception &fault) {
        std::fprintf(stderr, "corpus: %s\n", fault.what());
        return EXIT_FAILURE;
    }
    return EXIT_SUCCESS;
}
