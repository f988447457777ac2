// Tests of the tables of a file as typed rows, and of the names of refusals, stages and tags.

#include <algorithm>
#include <limits>
#include <string>
#include <type_traits>
#include <variant>
#include <vector>

#include "check.hpp"
#include "tikomuci_builder.hpp"
#include "walk.hpp"

namespace {

using tikomuci::Bytes;
using tikomuci::DebugTag;
using tikomuci::Outcome;
using tikomuci::Output;
using tikomuci::Refusal;
using tikomuci::Sheet;
using tikomuci::Stage;
using tikomuci::Tables;
using tikomuci::Type;
using tikomuci::TypeTag;
using tikomuci::Version;
using WordList = std::vector<std::uint64_t>;

static_assert(tikomuci::refusal_name(Refusal::None) == "accepted");
static_assert(tikomuci::refusal_name(Refusal::Limit) == "limit");
static_assert(tikomuci::refusal_name(Refusal::Short) == "short");
static_assert(tikomuci::refusal_name(Refusal::Overlong) == "overlong");
static_assert(tikomuci::refusal_name(Refusal::Magic) == "magic");
static_assert(tikomuci::refusal_name(Refusal::Padding) == "padding");
static_assert(tikomuci::refusal_name(Refusal::Bounds) == "bounds");
static_assert(tikomuci::refusal_name(Refusal::Producer) == "producer");
static_assert(tikomuci::refusal_name(Refusal::TypeTag) == "type-tag");
static_assert(tikomuci::refusal_name(Refusal::DebugTag) == "debug-tag");
static_assert(tikomuci::refusal_name(Refusal::Hints) == "hints");
static_assert(tikomuci::refusal_name(Refusal::Full) == "full");
static_assert(tikomuci::refusal_name(Refusal::Sheet) == "sheet");
static_assert(tikomuci::refusal_name(Refusal::Start) == "start");
static_assert(tikomuci::refusal_name(Refusal::Absent) == "absent");
static_assert(tikomuci::refusal_name(Refusal::NoSlot) == "no-slot");
static_assert(tikomuci::refusal_name(Refusal::Overlap) == "overlap");
static_assert(tikomuci::refusal_name(Refusal::Memory) == "memory");
static_assert(tikomuci::refusal_name(Refusal::Busy) == "busy");
static_assert(tikomuci::refusal_name(static_cast<Refusal>(15)) == "unknown");
static_assert(tikomuci::refusal_name(static_cast<Refusal>(17)) == "unknown");
static_assert(tikomuci::refusal_name(static_cast<Refusal>(19)) == "unknown");
static_assert(tikomuci::refusal_name(static_cast<Refusal>(FAR)) == "unknown");
static_assert(tikomuci::refusal_text(Refusal::Hints) == "a function has optimization hints");
static_assert(tikomuci::refusal_text(Refusal::Sheet) == "the sheet or the owner table is not well-formed");
static_assert(tikomuci::refusal_text(Refusal::NoSlot) == "all slots are taken by others");
static_assert(tikomuci::refusal_text(Refusal::Memory) == "there is no memory for the tables or the cache");
static_assert(tikomuci::refusal_text(Refusal::Busy) == "the lock of the cache is not free");
static_assert(tikomuci::stage_name(Stage::Limits) == "limits");
static_assert(tikomuci::stage_name(Stage::Header) == "header");
static_assert(tikomuci::stage_name(Stage::Sections) == "sections");
static_assert(tikomuci::stage_name(Stage::String) == "string");
static_assert(tikomuci::stage_name(Stage::Producer) == "producer");
static_assert(tikomuci::stage_name(Stage::Type) == "type");
static_assert(tikomuci::stage_name(Stage::Constant) == "constant");
static_assert(tikomuci::stage_name(Stage::Global) == "global");
static_assert(tikomuci::stage_name(Stage::Func) == "func");
static_assert(tikomuci::stage_name(Stage::Debug) == "debug");
static_assert(tikomuci::stage_name(Stage::Call) == "call");
static_assert(tikomuci::stage_name(static_cast<Stage>(11)) == "unknown");
static_assert(tikomuci::stage_text(static_cast<Stage>(FAR)) == "no call answers this number");
static_assert(tikomuci::type_name(TypeTag::I1) == "i1" && tikomuci::type_name(TypeTag::I4) == "i4");
static_assert(tikomuci::type_name(TypeTag::F8E5M3FNU) == "f8e5m3fnu");
static_assert(tikomuci::type_name(static_cast<TypeTag>(23)).empty());
static_assert(tikomuci::debug_name(DebugTag::CallSite) == "CallSite" &&
              tikomuci::debug_fields(DebugTag::CallSite) == 2);
static_assert(tikomuci::debug_name(static_cast<DebugTag>(7)).empty());
static_assert(Version{13, 3, 9} < Version{13, 4, 0} && Version{13, 4, 0} < Version{13, 4, 1});
static_assert(Version{14, 0, 0} > Version{13, 255, 65535} && Version{13, 4, 0} >= Version{13, 4, 0});

// The rows of a sheet stay with its stores, and nothing changes them there.
static_assert(!std::is_copy_constructible_v<Sheet> && !std::is_copy_assignable_v<Sheet>);
static_assert(!std::is_copy_constructible_v<Tables> && !std::is_copy_assignable_v<Tables>);
static_assert(std::is_same_v<decltype(std::declval<Tables &>().sheet()), const Sheet &>);

// Nothing throws: neither the calls, nor what stands over them.
static_assert(noexcept(tikomuci_measure(nullptr, 0)) &&noexcept(tikomuci_f8e5m2(0)));
static_assert(noexcept(tikomuci::measure(Bytes())) &&noexcept(tikomuci::constant(Bytes(), 0)));
static_assert(noexcept(tikomuci::read(Bytes(), Output(), Output())) &&noexcept(tikomuci::read(Bytes())));
static_assert(noexcept(tikomuci::write(Bytes(), Bytes(), Output())) &&noexcept(tikomuci::image(Bytes())));
static_assert(noexcept(tikomuci::Reader(Bytes()).varint()) &&noexcept(tikomuci::Writer(Output()).varint(0)));
static_assert(noexcept(Sheet::open(Bytes(), Bytes())) &&noexcept(*std::declval<const Sheet &>().types().begin()));
static_assert(std::is_nothrow_move_constructible_v<Tables> && std::is_nothrow_move_assignable_v<Tables>);

template <typename List, typename Value>
bool holds(const List &list, const std::vector<Value> &values) {
    return list.size() == values.size() && std::equal(values.begin(), values.end(), list.begin());
}

bool holds(Bytes bytes, const Wire &wanted) {
    return std::equal(bytes.begin(), bytes.end(), wanted.begin(), wanted.end());
}

bool spells(const std::optional<Bytes> &bytes, const std::string &text) {
    return bytes && holds(*bytes, Wire(text.begin(), text.end()));
}

Tables tables_of(const std::string &what, const Wire &file) {
    auto got = tikomuci::read(file);
    expect(static_cast<bool>(got), what + " is read");
    return std::move(got).value_or(Tables());
}

void every_row() {
    const Tables tables = tables_of("every table", every_table());
    const Sheet &sheet = tables.sheet();
    expect(holds(sheet.bytes(), little_endian(every_table_sheet())) && holds(sheet.pool(), every_table_pool()),
           "the stores");
    expect(sheet.version() == Version{13, 4, 0} && sheet.producer() == 1, "the version and the producer");
    expect(sheet.strings().size() == 2 && sheet.types().size() == 2 && sheet.constants().size() == 1 &&
               sheet.globals().size() == 1 && sheet.functions().size() == 1 && sheet.attributes().size() == 1 &&
               sheet.lists().size() == 1,
           "how many rows there are");
    expect(spells(sheet.string(0), "k") && spells(sheet.string(1), "main"), "the strings");
    expect(spells(sheet.constant(0), "\xDE\xAD\xBE"), "the constant");
    const auto global = sheet.global(0);
    expect(global && global->name == 0 && global->type == 0 && global->constant == 0 && global->alignment == 16 &&
               global->visibility == 1 && global->is_constant,
           "the global");
    const auto function = sheet.function(0);
    expect(function && function->name == 1 && function->signature == 1 && function->is_kernel() &&
               !function->is_private() && function->location == 1 && spells(function->body, "\x0A\x0B\x0C\x0D"),
           "the function");
    const auto attribute = sheet.attribute(0);
    expect(attribute && attribute->tag == DebugTag::DIFile && holds(attribute->fields, WordList{0, 1}),
           "the attribute");
    const auto list = sheet.list(0);
    expect(list && holds(*list, WordList{1}), "the list");
}

void rows_outside() {
    const Tables tables = tables_of("every table", every_table());
    const Sheet &sheet = tables.sheet();
    expect(walk::rows_outside(sheet) == 0, "no table has a row behind its last");
    expect(!sheet.string(2) && !sheet.type(2) && !sheet.constant(1) && !sheet.global(1) && !sheet.function(1) &&
               !sheet.attribute(1) && !sheet.list(1),
           "a number that no row has");
    const Sheet nothing;
    expect(nothing.strings().empty() && !nothing.string(0) && !nothing.producer() && nothing.bytes().empty(),
           "a sheet that was not opened");
}

// A row of a range is the row of its number, whichever way that is found.
void ranges() {
    const Tables tables = tables_of("every table", every_table());
    const Sheet &sheet = tables.sheet();
    const walk::Sums rows = walk::by_range(sheet);
    expect(rows.size() == 7 + 9 && walk::by_number(sheet) == rows, "rows by range and by number");
    std::vector<Wire> strings;
    for (const Bytes string : sheet.strings()) {
        strings.emplace_back(string.begin(), string.end());
    }
    expect(strings == std::vector<Wire>{{'k'}, {'m', 'a', 'i', 'n'}}, "the strings in their order");
    const auto types = sheet.types();
    auto type = types.begin();
    const auto first = type++;
    expect(first.number() == 0 && type.number() == 1 && first != type && (*first).tag == TypeTag::I32 &&
               (*type).tag == TypeTag::Func && ++type == types.end(),
           "steps of a range");
}

// Five rows in every table, no two of one size: by range, by number, over other stores, and by an index.
void many_rows() {
    tikomuci::Builder builder({13, 4, 0});
    for (std::uint8_t number = 0; number < 5; ++number) {
        const Wire bytes(number + 1U, number);
        builder.string(bytes);
        builder.constant(bytes);
        builder.tile(number, std::vector<std::int64_t>(number, -number));
        builder.global({number, 1, 2, 3, 4, true});
        builder.function({number, 0, 0, 0, bytes});
        builder.di_file(number, 1);
        builder.list(WordList(number, 7));
    }
    const Wire file = builder.file().value_or(Wire());
    const Tables tables = tables_of("five rows in every table", file);
    const walk::Sums rows = walk::by_range(tables.sheet());
    expect(rows.size() == 7 * 6 && walk::by_number(tables.sheet()) == rows, "five rows in every table");
    for (std::uint8_t number = 0; number < 5; ++number) {
        const std::string bytes(number + 1U, static_cast<char>(number));
        const auto function = tables.sheet().function(number);
        expect(spells(tables.sheet().string(number), bytes) && spells(tables.sheet().constant(number), bytes) &&
                   function && function->name == number && spells(function->body, bytes),
               "the bytes of row " + std::to_string(number));
    }
    Wire words(tables.sheet().bytes().size());
    Wire pool(tables.sheet().pool().size());
    const auto lent = tikomuci::read_sheet(file, words, pool);
    expect(lent && walk::by_range(*lent) == rows && walk::by_number(*lent) == rows, "the same rows in lent stores");
}

// Moving the tables keeps their rows, and leaves none behind.
void moved_tables() {
    Tables tables = tables_of("the whole case", whole_case());
    const Sheet &left = tables.sheet();
    Tables kept = std::move(tables);
    const auto row = kept.sheet().string(1);
    expect(spells(row, "bc") && row->data() == kept.sheet().pool().data() + 1, "a row of moved tables");
    expect(walk::by_range(left) == walk::Sums(7, 0) && left.bytes().empty() && left.pool().empty() && !left.string(0),
           "tables that were moved from answer nothing");
    Tables other = tables_of("every table", every_table());
    other = std::move(kept);
    expect(spells(other.sheet().string(1), "bc") && other.sheet().functions().empty(), "tables that were moved over");
    expect(kept.sheet().strings().empty(), "and those moved from");
}

// A sheet over stores that the call filled, wherever they stand: as the one over stores of its own, without an index
// and with one.
void lent_stores() {
    const Wire file = every_table();
    const Tables tables = tables_of("every table", file);
    const walk::Sums rows = walk::by_range(tables.sheet());
    for (std::size_t shift = 0; shift < 8; ++shift) {
        const std::string what = "stores at " + std::to_string(shift);
        Wire words(shift + 49 * 8 + 7, CANARY);
        Wire bytes(shift + 12 + 1, CANARY);
        auto sheet = tikomuci::read_sheet(file, Output(words).subspan(shift), Output(bytes).subspan(shift));
        expect(sheet && sheet->bytes().data() == words.data() + shift && sheet->bytes().size() == 49 * 8 &&
                   sheet->pool().data() == bytes.data() + shift && sheet->pool().size() == 12,
               what + ": the sheet is what was read");
        if (!sheet) {
            continue;
        }
        expect(walk::by_range(*sheet) == rows && walk::by_number(*sheet) == rows, what + ": the rows");
        std::vector<std::uint32_t> index(sheet->index_size() + 1, 0xA5A5A5A5);
        expect(sheet->index(std::span(index).first(sheet->index_size() - 1)) == FULL &&
                   index == std::vector<std::uint32_t>(index.size(), 0xA5A5A5A5),
               what + ": a store that is too small for an index stays");
        expect(sheet->index_size() == 7 && sheet->index(index) == Outcome{} && index[7] == 0xA5A5A5A5,
               what + ": an index");
        expect(walk::by_range(*sheet) == rows && walk::by_number(*sheet) == rows && walk::rows_outside(*sheet) == 0,
               what + ": the rows by an index");
    }
    Wire small(48 * 8);
    Wire pool(12);
    expect(tikomuci::read_sheet(file, small, pool).outcome() == FULL, "a store that is too small");
    expect(tikomuci::read_sheet(file, pool, pool).outcome() == tikomuci::OVERLAPPING, "one store for both");
}

// Bytes and numbers of 32 or 64 bits, one after the other.
struct Spelled {
    Wire wire;

    Spelled &bytes(const Wire &more) {
        wire.insert(wire.end(), more.begin(), more.end());
        return *this;
    }
    Spelled &i32(std::int32_t value) { return number(static_cast<std::uint64_t>(value), 4); }
    Spelled &i64(std::int64_t value) { return number(static_cast<std::uint64_t>(value), 8); }

  private:
    Spelled &number(std::uint64_t value, std::size_t width) {
        Wire word = little_endian({value});
        word.resize(width);
        return bytes(word);
    }
};

// A file of version 13.`minor` with these type entries, and the types that are read from it.
Tables types_of(std::uint8_t minor, const std::vector<Spelled> &entries) {
    Spelled payload{{static_cast<std::uint8_t>(entries.size()), 0xCB, 0xCB, 0xCB}};
    std::int32_t start = 0;
    for (const Spelled &entry : entries) {
        payload.i32(start);
        start += static_cast<std::int32_t>(entry.wire.size());
    }
    for (const Spelled &entry : entries) {
        payload.bytes(entry.wire);
    }
    Wire file = {0x7F, 'T', 'i', 'l', 'e', 'I', 'R', 0x00, 13, minor, 0, 0};
    file.resize(32 + payload.wire.size());
    tikomuci::Writer writer(file, 12);
    const bool written = writer.byte(TIKOMUCI_SECTION_TYPE) && writer.varint(payload.wire.size()) &&
                         writer.bytes(payload.wire) && writer.byte(0);
    file.resize(writer.tell());
    Tables tables = tables_of("types of 13." + std::to_string(minor), file);
    expect(written && tables.sheet().types().size() == entries.size(), "types of 13." + std::to_string(minor));
    return tables;
}

template <typename Kind>
Kind kind_of(const Tables &tables, std::uint64_t i, TypeTag tag) {
    const std::optional<Type> type = tables.sheet().type(i);
    const bool there = type && type->tag == tag && std::holds_alternative<Kind>(type->kind);
    expect(there, "type " + std::to_string(i) + " is of its kind");
    return there ? std::get<Kind>(type->kind) : Kind{};
}

void newest_types() {
    const std::int64_t dynamic = std::numeric_limits<std::int64_t>::min();
    const auto tables =
        types_of(4, {Spelled{{3}}, Spelled{{12, 1, 0, 7}}, Spelled{{12, 0, 0}}, Spelled{{13, 0, 2}}.i64(4).i64(-1),
                     Spelled{{14, 1, 0, 1}}.i64(8).bytes({2}).i64(dynamic).i64(1).bytes({3}),
                     Spelled{{15, 1, 2}}.i32(2).i32(-3).bytes({4, 1}).i32(0).bytes({9}),
                     Spelled{{20, 0, 1}}.i32(5).bytes({4, 1}),
                     Spelled{{21, 1, 1}}.i32(6).bytes({1}).i32(7).bytes({4, 1}).i32(-8).bytes({2}),
                     Spelled{{16, 2, 0, 1, 1, 3}}, Spelled{{0x82, 0x01}}, Spelled{{17}}});
    static_cast<void>(kind_of<tikomuci::Scalar>(tables, 0, TypeTag::I32));
    const auto pointer = kind_of<tikomuci::Pointer>(tables, 1, TypeTag::Pointer);
    expect(pointer.flags == 1 && pointer.element == 0 && pointer.attribute == 7, "a pointer with an attribute");
    expect(!kind_of<tikomuci::Pointer>(tables, 2, TypeTag::Pointer).attribute, "a pointer without one");
    const auto tile = kind_of<tikomuci::Tile>(tables, 3, TypeTag::Tile);
    expect(tile.element == 0 && holds(tile.shape, std::vector<std::int64_t>{4, -1}), "a tile");
    expect(tile.shape.at(1) == -1 && !tile.shape.at(2) && !tile.shape.at(FAR), "the numbers of a list");
    const auto tensor = kind_of<tikomuci::TensorView>(tables, 4, TypeTag::TensorView);
    expect(tensor.flags == 1 && tensor.element == 0 && holds(tensor.shape, std::vector<std::int64_t>{8}) &&
               holds(tensor.strides, std::vector<std::int64_t>{dynamic, 1}) && tensor.attribute == 3,
           "a tensor view");
    const auto partition = kind_of<tikomuci::PartitionView>(tables, 5, TypeTag::PartitionView);
    expect(partition.flags == 1 && holds(partition.shape, std::vector<std::int32_t>{2, -3}) && partition.view == 4 &&
               holds(partition.map, std::vector<std::int32_t>{0}) && partition.padding == 9,
           "a partition view");
    const auto gather = kind_of<tikomuci::GatherScatterView>(tables, 6, TypeTag::GatherScatterView);
    expect(gather.flags == 0 && holds(gather.shape, std::vector<std::int32_t>{5}) && gather.view == 4 &&
               gather.sparse == 1 && !gather.padding,
           "a gather-scatter view");
    const auto strided = kind_of<tikomuci::StridedView>(tables, 7, TypeTag::StridedView);
    expect(strided.flags == 1 && holds(strided.shape, std::vector<std::int32_t>{6}) &&
               holds(strided.strides, std::vector<std::int32_t>{7}) && strided.view == 4 &&
               holds(strided.map, std::vector<std::int32_t>{-8}) && strided.padding == 2,
           "a strided view");
    const auto function = kind_of<tikomuci::FuncType>(tables, 8, TypeTag::Func);
    expect(holds(function.inputs, WordList{0, 1}) && holds(function.results, WordList{3}), "a function type");
    static_cast<void>(kind_of<tikomuci::Scalar>(tables, 9, TypeTag::F8E5M3FNU));
    static_cast<void>(kind_of<tikomuci::Scalar>(tables, 10, TypeTag::Token));
}

// Below 13.4 pointers and tensor views have no flags; below 13.3 a partition view has a presence byte behind its map.
void older_types() {
    const auto oldest =
        types_of(1, {Spelled{{12, 5}}, Spelled{{14, 5, 0, 1}}.i64(6),
                     Spelled{{15, 1}}.i32(2).bytes({1, 1}).i32(1).bytes({5, 0xAC, 0x02}), Spelled{{15, 0, 1, 0, 0}}});
    const auto pointer = kind_of<tikomuci::Pointer>(oldest, 0, TypeTag::Pointer);
    expect(pointer.flags == 0 && pointer.element == 5 && !pointer.attribute, "a pointer of 13.1");
    const auto tensor = kind_of<tikomuci::TensorView>(oldest, 1, TypeTag::TensorView);
    expect(tensor.flags == 0 && tensor.element == 5 && tensor.shape.empty() &&
               holds(tensor.strides, std::vector<std::int64_t>{6}) && !tensor.attribute,
           "a tensor view of 13.1");
    const auto partition = kind_of<tikomuci::PartitionView>(oldest, 2, TypeTag::PartitionView);
    expect(partition.flags == 1 && holds(partition.shape, std::vector<std::int32_t>{2}) && partition.view == 1 &&
               holds(partition.map, std::vector<std::int32_t>{1}) && partition.padding == 300,
           "a partition view of 13.1");
    expect(!kind_of<tikomuci::PartitionView>(oldest, 3, TypeTag::PartitionView).padding, "one without padding");
    const auto between = types_of(3, {Spelled{{12, 5}}, Spelled{{15, 2, 0, 1, 0}}});
    expect(kind_of<tikomuci::Pointer>(between, 0, TypeTag::Pointer).element == 5, "a pointer of 13.3");
    const auto flagged = kind_of<tikomuci::PartitionView>(between, 1, TypeTag::PartitionView);
    expect(flagged.flags == 2 && flagged.view == 1 && !flagged.padding, "a partition view of 13.3");
}

// The sheet of a file with a row in every table, after one word became another.
void not_opened(const std::string &what, std::size_t word, std::uint64_t value) {
    WordList words = every_table_sheet();
    const Wire pool = every_table_pool();
    expect(words[word] != value, what + ": the word is another");
    words[word] = value;
    const Wire sheet = little_endian(words);
    expect(Sheet::open(sheet, pool).outcome() == SHEET, what);
}

void sheets_that_are_none() {
    const WordList words = every_table_sheet();
    Wire sheet = little_endian(words);
    Wire pool = every_table_pool();
    expect(static_cast<bool>(Sheet::open(sheet, pool)), "a sheet is opened");
    for (std::size_t size = 0; size < sheet.size(); ++size) {
        expect(Sheet::open(Bytes(sheet).first(size), pool).outcome() == SHEET,
               "a sheet cut to " + std::to_string(size) + " bytes");
    }
    for (int more = 0; more < 8; ++more) {
        sheet.push_back(0);
        expect(Sheet::open(sheet, pool).outcome() == SHEET, "a sheet with bytes too many");
    }
    sheet.resize(words.size() * 8);
    expect(Sheet::open(sheet, Bytes(pool).first(11)).outcome() == SHEET, "a pool with a byte too few");
    pool.push_back(0);
    expect(Sheet::open(sheet, pool).outcome() == SHEET, "a pool with a byte too many");
    expect(tikomuci::patch_u64(sheet, 4 * 8, pool.size()) && Sheet::open(sheet, pool).outcome() == SHEET,
           "a byte of the pool that is no row's");
    not_opened("a major version above 255", 0, 256);
    not_opened("a minor version above 255", 1, 256);
    not_opened("a version tag above 65535", 2, 65536);
    not_opened("a producer that is no string", 3, 3);
    not_opened("another pool length", 4, 11);
    for (std::size_t contents = 5; contents < 19; ++contents) {
        const std::string what = "word " + std::to_string(contents) + " of the contents, ";
        not_opened(what + "one more", contents, words[contents] + 1);
        not_opened(what + "one less", contents, words[contents] - 1);
        not_opened(what + "far", contents, FAR);
    }
    not_opened("a longer string", 19, 2);
    not_opened("a far longer string", 20, FAR);
    not_opened("a type row without a tag", 21, 0);
    not_opened("a type tag that is not known", 22, 23);
    not_opened("a type row that is too long for its tag", 24, 3);
    not_opened("a type with an input too many", 25, 2);
    not_opened("a type with far too many inputs", 25, FAR);
    not_opened("a longer body", 39, 5);
    not_opened("a debug tag that is not known", 40, 7);
    not_opened("a far debug tag", 40, FAR);
    not_opened("a list that is too long", 47, 2);
    not_opened("a list that is too short", 47, 0);
}

void refused_reads() {
    Wire file = every_table();
    file[97] = 4;
    const auto got = tikomuci::read(file);
    expect(!got && got.outcome() == Outcome{Refusal::Hints, Stage::Func}, "a refused file has no tables");
}

}  // namespace

void table_tests() {
    every_row();
    rows_outside();
    ranges();
    many_rows();
    moved_tables();
    lent_stores();
    newest_types();
    older_types();
    sheets_that_are_none();
    refused_reads();
}
