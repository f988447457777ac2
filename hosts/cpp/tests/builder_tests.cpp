// Tests of the Builder: the sheet that it counts is the one that was counted by hand, and rows of every kind and
// version come back as they were given.

#include <algorithm>
#include <limits>
#include <list>
#include <optional>
#include <string>
#include <variant>
#include <vector>

#include "check.hpp"
#include "tikomuci_builder.hpp"
#include "walk.hpp"

namespace {

using tikomuci::Builder;
using tikomuci::Bytes;
using tikomuci::Sheet;
using tikomuci::Tables;
using tikomuci::TypeTag;

constexpr std::int64_t DYNAMIC = std::numeric_limits<std::int64_t>::min();
constexpr std::int32_t LOWEST = std::numeric_limits<std::int32_t>::min();

// The rows of every_table(), by name.
Builder every_row() {
    Builder tables({13, 4, 0});
    const std::uint64_t k = tables.string("k");
    const std::uint64_t name = tables.string(Wire{'m', 'a', 'i', 'n'});
    tables.producer(name);
    const std::uint64_t i32 = tables.scalar(TypeTag::I32);
    const std::uint64_t signature = tables.func({i32}, {});
    const std::uint64_t constant = tables.constant(Wire{0xDE, 0xAD, 0xBE});
    tables.global({k, i32, constant, 16, 1, true});
    const std::uint64_t location = tables.di_file(k, name);
    tables.function({name, signature, TIKOMUCI_FUNCTION_KERNEL, location, Wire{0x0A, 0x0B, 0x0C, 0x0D}});
    tables.list({location});
    return tables;
}

void counted_by_hand() {
    const Builder every = every_row();
    expect(every.sheet() == little_endian(every_table_sheet()) && every.pool() == every_table_pool(), "every table");
    Builder strings({13, 1, 0});
    expect(strings.string("a") == 0 && strings.string("bc") == 1, "rows are counted from 0");
    expect(strings.unknown() == 1 && strings.unknown() == 2, "attributes are counted from 1");
    Builder whole({13, 1, 0});
    whole.string("a");
    whole.string("bc");
    const auto file = whole.file();
    expect(file && *file == whole_case(), "the whole case");
    const Builder none({12, 7, 0x1234});
    const std::vector<std::uint64_t> contents = {12, 7, 0x1234, 0, 0, 19, 0, 19, 0, 19, 0, 19, 0, 19, 0, 19, 0, 19, 0};
    expect(none.sheet() == little_endian(contents) && none.pool().empty(), "no row");
}

// The tables of a file that is built. The same rows, taken from them, build the same file again.
Tables built(const std::string &what, const Builder &builder) {
    const auto file = builder.file();
    expect(static_cast<bool>(file), what + " is well-formed");
    auto read = tikomuci::read(file.value_or(Wire()));
    Tables tables = std::move(read).value_or(Tables());
    const Builder again(tables.sheet());
    expect(again.sheet() == builder.sheet() && again.pool() == builder.pool(), what + ": the same tables again");
    const auto second = again.file();
    expect(file && second && *second == *file, what + ": the same file again");
    return tables;
}

template <typename List, typename Int>
bool holds(const List &list, const std::vector<Int> &wanted) {
    return list.size() == wanted.size() && std::equal(wanted.begin(), wanted.end(), list.begin());
}

template <typename Kind>
Kind kind_of(const Tables &tables, std::uint64_t number) {
    const auto type = tables.sheet().type(number);
    const bool there = type && std::holds_alternative<Kind>(type->kind);
    expect(there, "type " + std::to_string(number) + " is of its kind");
    return there ? std::get<Kind>(type->kind) : Kind{};
}

void views_of_tensors(std::uint8_t minor, std::optional<std::uint64_t> attribute) {
    Builder builder({13, minor, 0});
    const std::uint64_t flags = minor < 4 ? 0 : 6;
    const std::uint64_t scalar = builder.scalar(TypeTag::BF16);
    const std::uint64_t pointer = builder.pointer(scalar, attribute, flags);
    const std::uint64_t tile = builder.tile(pointer, std::vector<std::int64_t>{16, DYNAMIC});
    const std::uint64_t tensor = builder.tensor_view(tile, {-1, 8}, std::list<std::int32_t>{4}, attribute, flags);
    const std::uint64_t function = builder.func({scalar, FAR}, std::vector<std::uint32_t>{3});
    const Tables tables = built("types of 13." + std::to_string(minor), builder);
    expect(tables.sheet().type(scalar)->tag == TypeTag::BF16, "a scalar");
    const std::uint64_t wanted = flags | (attribute ? 1 : 0);
    const auto read_pointer = kind_of<tikomuci::Pointer>(tables, pointer);
    expect(read_pointer.element == scalar && read_pointer.attribute == attribute && read_pointer.flags == wanted,
           "a pointer");
    const auto read_tile = kind_of<tikomuci::Tile>(tables, tile);
    expect(read_tile.element == pointer && holds(read_tile.shape, std::vector<std::int64_t>{16, DYNAMIC}), "a tile");
    const auto read_tensor = kind_of<tikomuci::TensorView>(tables, tensor);
    expect(read_tensor.element == tile && read_tensor.attribute == attribute && read_tensor.flags == wanted &&
               holds(read_tensor.shape, std::vector<std::int64_t>{-1, 8}) &&
               holds(read_tensor.strides, std::vector<std::int64_t>{4}),
           "a tensor view");
    const auto read_function = kind_of<tikomuci::FuncType>(tables, function);
    expect(holds(read_function.inputs, std::vector<std::uint64_t>{scalar, FAR}) &&
               holds(read_function.results, std::vector<std::uint64_t>{3}),
           "a function type");
}

// Flags of a partition below 13.3 say no more than whether there is padding.
void views_of_views(std::uint8_t minor, std::optional<std::uint64_t> padding) {
    Builder builder({13, minor, 0});
    const std::uint64_t flags = minor < 3 ? 0 : 4;
    const std::vector<std::int32_t> shape = {LOWEST, 7};
    const std::uint64_t partition = builder.partition_view(shape, 9, {-1, 1}, padding, flags);
    const std::uint64_t gather = builder.gather_scatter_view({}, 10, 300, padding, 2);
    const std::uint64_t strided = builder.strided_view({3}, shape, 11, {}, padding, 8);
    const Tables tables = built("views of 13." + std::to_string(minor), builder);
    const std::uint64_t bit = padding ? 1 : 0;
    const auto read_partition = kind_of<tikomuci::PartitionView>(tables, partition);
    expect(holds(read_partition.shape, shape) && read_partition.view == 9 &&
               holds(read_partition.map, std::vector<std::int32_t>{-1, 1}) && read_partition.padding == padding &&
               read_partition.flags == (flags | bit),
           "a partition view");
    const auto read_gather = kind_of<tikomuci::GatherScatterView>(tables, gather);
    expect(read_gather.shape.empty() && read_gather.view == 10 && read_gather.sparse == 300 &&
               read_gather.padding == padding && read_gather.flags == (2 | bit),
           "a gather-scatter view");
    const auto read_strided = kind_of<tikomuci::StridedView>(tables, strided);
    expect(holds(read_strided.shape, std::vector<std::int32_t>{3}) && holds(read_strided.strides, shape) &&
               read_strided.view == 11 && read_strided.map.empty() && read_strided.padding == padding &&
               read_strided.flags == (8 | bit),
           "a strided view");
}

void all_types() {
    for (const std::uint8_t minor : {std::uint8_t{2}, std::uint8_t{3}, std::uint8_t{4}, std::uint8_t{255}}) {
        views_of_tensors(minor, std::nullopt);
        views_of_views(minor, std::nullopt);
        views_of_views(minor, 255);
    }
    views_of_tensors(4, 0);
    views_of_tensors(4, 255);
}

void scalars() {
    Builder builder({13, 4, 0});
    std::vector<TypeTag> tags;
    for (unsigned number = 0; number < 256; ++number) {
        Builder alone({13, 4, 0});
        alone.scalar(static_cast<TypeTag>(number));
        if (alone.file()) {
            tags.push_back(static_cast<TypeTag>(number));
            builder.scalar(tags.back());
        }
    }
    const Tables tables = built("scalars", builder);
    std::vector<TypeTag> read;
    for (const tikomuci::Type &type : tables.sheet().types()) {
        read.push_back(type.tag);
    }
    expect(tags.size() == 17 && read == tags, "sixteen scalars and the token");
}

void debug_rows() {
    Builder builder({13, 4, 0});
    const std::vector<std::uint64_t> ids = {builder.unknown(),           builder.di_compile_unit(FAR),
                                            builder.di_file(1, 2),       builder.di_lexical_block(3, 4, 5, 6),
                                            builder.di_loc(7, 8, 9, 10), builder.di_subprogram(11, 12, 13, 14, 15, 16),
                                            builder.call_site(17, 18)};
    builder.list(ids);
    builder.list({});
    const Tables tables = built("debug rows", builder);
    const std::vector<std::vector<std::uint64_t>> fields = {
        {}, {FAR}, {1, 2}, {3, 4, 5, 6}, {7, 8, 9, 10}, {11, 12, 13, 14, 15, 16}, {17, 18}};
    std::size_t tag = 0;
    for (const tikomuci::Attribute &row : tables.sheet().attributes()) {
        expect(tikomuci::number_of(row.tag) == tag && tag < fields.size() && holds(row.fields, fields[tag]),
               "attribute " + std::to_string(tag));
        ++tag;
    }
    const auto list = tables.sheet().list(0);
    expect(tag == 7 && ids == std::vector<std::uint64_t>{1, 2, 3, 4, 5, 6, 7} && list && holds(*list, ids),
           "attributes have the ids from 1 on");
}

void globals_and_functions() {
    for (const std::uint8_t minor : {std::uint8_t{2}, std::uint8_t{3}}) {
        const bool flags = minor > 2;
        Builder builder({13, minor, 9});
        builder.global({FAR, 1, 2, 3, flags ? 255U : 0U, flags});
        builder.function({1, 2, 0xFB, FAR, Wire(200, 7)});
        builder.function({3, 4, 0, 0, {}});
        const Tables tables = built("globals of 13." + std::to_string(minor), builder);
        const auto global = tables.sheet().global(0);
        expect(global && global->name == FAR && global->type == 1 && global->constant == 2 && global->alignment == 3 &&
                   global->visibility == (flags ? 255 : 0) && global->is_constant == flags,
               "a global");
        const auto first = tables.sheet().function(0);
        const auto second = tables.sheet().function(1);
        expect(first && first->name == 1 && first->signature == 2 && first->flags == 0xFB && first->location == FAR &&
                   first->body.size() == 200 && second && second->name == 3 && second->body.empty(),
               "functions");
    }
}

void refused(const std::string &what, const Builder &builder) {
    expect(builder.file().outcome() == SHEET, what + " is not well-formed");
}

template <typename Add>
Builder made(std::uint8_t minor, Add add) {
    Builder builder({13, minor, 0});
    add(builder);
    return builder;
}

void what_is_not_well_formed() {
    refused("an attribute of a pointer below 13.4", made(3, [](Builder &b) { b.pointer(0, 1); }));
    refused("flags of a tensor view below 13.4", made(3, [](Builder &b) { b.tensor_view(0, {}, {}, {}, 2); }));
    refused("flags of a partition below 13.3", made(2, [](Builder &b) { b.partition_view({}, 0, {}, {}, 2); }));
    refused("padding over a byte", made(3, [](Builder &b) { b.partition_view({}, 0, {}, 256); }));
    refused("visibility below 13.3", made(2, [](Builder &b) { b.global({0, 0, 0, 0, 1, false}); }));
    refused("hints", made(4, [](Builder &b) { b.function({0, 0, TIKOMUCI_FUNCTION_HINTS, 0, {}}); }));
    refused("a producer that is no string", made(4, [](Builder &b) { b.producer(0); }));
    refused("a scalar that is none", made(4, [](Builder &b) { b.scalar(TypeTag::Tile); }));
}

}  // namespace

void builder_tests() {
    counted_by_hand();
    all_types();
    scalars();
    debug_rows();
    globals_and_functions();
    what_is_not_well_formed();
}
