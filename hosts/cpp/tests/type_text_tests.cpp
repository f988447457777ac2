// Tests of the texts of types: each kind, each refusal and their order, what stays untouched, sheets and outputs at
// pages that cannot be touched, and texts that are far longer than any output.

#include <algorithm>
#include <initializer_list>
#include <string>
#include <vector>

#include "guarded.hpp"
#include "tikomuci_builder.hpp"
#include "type_model.hpp"

namespace {

using tikomuci::Builder;
using tikomuci::Bytes;
using tikomuci::Outcome;
using tikomuci::outcome_of;
using tikomuci::Output;
using tikomuci::Refusal;
using tikomuci::Sheet;
using tikomuci::TypeTag;

constexpr std::int64_t DYNAMIC = std::numeric_limits<std::int64_t>::min();
constexpr std::array<std::uint64_t, 6> WORDS = {0, 1, 2, 0x80, std::uint64_t{1} << 63, FAR};

Wire bytes_of(const std::string &text) { return Wire(text.begin(), text.end()); }

tikomuci_answer called(Bytes sheet, std::uint64_t row, Output out) {
    return tikomuci_type_text(sheet.data(), sheet.size(), row, out.data(), out.size());
}

bool is(const tikomuci_answer &answer, Outcome wanted, std::uint64_t first = 0) {
    return outcome_of(answer) == wanted && answer.first == first && answer.second == 0;
}

// A call over an output of this size, inside memory that holds the canary: what it answers, and what the memory holds.
void puts(const std::string &what, Bytes sheet, std::uint64_t row, std::size_t room, Outcome wanted, const Wire &text) {
    Wire memory(room + 2, CANARY);
    Wire after = memory;
    std::copy(text.begin(), text.end(), after.begin() + 1);
    const std::string in = what + " in " + std::to_string(room) + " bytes";
    expect(is(called(sheet, row, Output(memory).subspan(1, room)), wanted, text.size()), in);
    expect(memory == after, in + ": the output");
}

// A text in just the room that it needs, in more, in one byte less, and in none.
void has_text(const std::string &what, Bytes sheet, std::uint64_t row, const std::string &text) {
    const Wire bytes = bytes_of(text);
    puts(what + ", " + text, sheet, row, bytes.size(), {}, bytes);
    puts(what + ", " + text, sheet, row, bytes.size() + 9, {}, bytes);
    puts(what + ", " + text, sheet, row, bytes.size() - 1, FULL, {});
    puts(what + ", " + text, sheet, row, 0, FULL, {});
    const auto own = tikomuci::type_text(sheet, row);
    expect(own && own->view() == text && own->view().data()[text.size()] == 0, what + ", " + text + ": of its own");
}

// Types and the texts that they have to have.
struct Named {
    explicit Named(std::uint8_t minor) : tables({13, minor, 0}) {}

    std::uint64_t add(std::uint64_t row, const std::string &text) {
        texts.push_back(text);
        return row;
    }

    Builder tables;
    std::vector<std::string> texts;
};

void has_texts(const std::string &what, const Named &named) {
    const Wire sheet = named.tables.sheet();
    expect(static_cast<bool>(tikomuci::image(sheet)), what + " is well-formed");
    for (std::size_t row = 0; row < named.texts.size(); ++row) {
        has_text(what, sheet, row, named.texts[row]);
    }
    for (const std::uint64_t row : std::initializer_list<std::uint64_t>{named.texts.size(), FAR - 1, FAR}) {
        puts(what + ", no row " + std::to_string(row), sheet, row, 64, ABSENT, {});
        puts(what + ", no row " + std::to_string(row), sheet, row, 0, ABSENT, {});
    }
}

Named scalars() {
    Named made(4);
    for (unsigned number = 0; number < 256; ++number) {
        Builder alone({13, 4, 0});
        alone.scalar(static_cast<TypeTag>(number));
        if (tikomuci::image(alone.sheet())) {
            const auto tag = static_cast<TypeTag>(number);
            made.add(made.tables.scalar(tag), std::string(tikomuci::type_name(tag)));
        }
    }
    expect(made.texts.size() == 17, "sixteen scalars and the token");
    return made;
}

// Every kind with fields, and every number in them that is put in a way of its own.
Named kinds() {
    Named made(4);
    Builder &tables = made.tables;
    const auto f32 = made.add(tables.scalar(TypeTag::F32), "f32");
    const auto pointer = made.add(tables.pointer(f32), "ptr<f32>");
    made.add(tables.pointer(f32, 1), "ptr<f32, ptr_attr=1>");
    made.add(tables.pointer(pointer, 255, 6), "ptr<ptr<f32>, ptr_attr=255>");
    made.add(tables.tile(f32, {2, 4}), "tile<2x4xf32>");
    made.add(tables.tile(f32, {}), "tile<f32>");
    made.add(tables.tile(pointer, {DYNAMIC}), "tile<-9223372036854775808xptr<f32>>");
    made.add(tables.tile(f32, {std::numeric_limits<std::int64_t>::max(), -1, 0}), "tile<9223372036854775807x-1x0xf32>");
    const auto view = made.add(tables.tensor_view(f32, {DYNAMIC, 4}, {4, 1}), "tensor_view<?x4xf32, strides=[4,1]>");
    made.add(tables.tensor_view(f32, {}, {}), "tensor_view<xf32, strides=[]>");
    made.add(tables.tensor_view(f32, {-1, DYNAMIC + 1}, {DYNAMIC}, 0),
             "tensor_view<-1x-9223372036854775807xf32, strides=[?], ptr_attr=0>");
    made.add(tables.partition_view({8, 8}, view, {0, 1}, 1),
             "partition_view<tile=(8x8), tv=tensor_view<?x4xf32, strides=[4,1]>, padding=1>");
    made.add(tables.partition_view({}, f32, {}), "partition_view<tile=(), tv=f32>");
    made.add(tables.partition_view({std::numeric_limits<std::int32_t>::min(), -1}, f32, {9}),
             "partition_view<tile=(-2147483648x-1), tv=f32>");
    made.add(tables.gather_scatter_view({5}, view, FAR),
             "gather_scatter_view<tile=(5), tv=tensor_view<?x4xf32, strides=[4,1]>, sparse_dim=18446744073709551615>");
    made.add(tables.gather_scatter_view({}, f32, 0, 2),
             "gather_scatter_view<tile=(), tv=f32, sparse_dim=0, padding=2>");
    made.add(tables.strided_view({6, 10}, {7, -1}, f32, {-8, 100}),
             "strided_view<tile=(6x10), traversal_strides=[7,-1], tv=f32, dim_map=[-8,100]>");
    made.add(tables.strided_view({}, {}, f32, {}, 255),
             "strided_view<tile=(), traversal_strides=[], tv=f32, dim_map=[], padding=255>");
    const auto function = made.add(tables.func({f32, 99}, {}), "(f32, ?) -> ()");
    made.add(tables.func({}, {}), "() -> ()");
    made.add(tables.func({function}, {f32, function, pointer}), "((f32, ?) -> ()) -> (f32, (f32, ?) -> (), ptr<f32>)");
    return made;
}

// What is no earlier row: the row itself, a later one, and one that is not there.
Named unknown_names() {
    Named made(4);
    Builder &tables = made.tables;
    made.add(tables.pointer(0), "ptr<?>");
    made.add(tables.tile(2, {3}), "tile<3x?>");
    made.add(tables.tensor_view(FAR, {1}, {}), "tensor_view<1x?, strides=[]>");
    made.add(tables.partition_view({}, 3, {}), "partition_view<tile=(), tv=?>");
    made.add(tables.gather_scatter_view({}, 5, 1), "gather_scatter_view<tile=(), tv=?, sparse_dim=1>");
    made.add(tables.strided_view({}, {}, std::uint64_t{1} << 32, {}),
             "strided_view<tile=(), traversal_strides=[], tv=?, dim_map=[]>");
    made.add(tables.func({0, 6, 7, FAR}, {5, 6}),
             "(ptr<?>, ?, ?, ?) -> (strided_view<tile=(), traversal_strides=[], tv=?, dim_map=[]>, ?)");
    made.add(tables.scalar(TypeTag::I1), "i1");
    return made;
}

// Below 13.3 the padding of a partition view may be any number.
Named oldest() {
    Named made(1);
    made.add(made.tables.scalar(TypeTag::BF16), "bf16");
    made.add(made.tables.partition_view({2}, 0, {}, FAR),
             "partition_view<tile=(2), tv=bf16, padding=18446744073709551615>");
    made.add(made.tables.pointer(0), "ptr<bf16>");
    return made;
}

// Types behind strings and before other rows; none of the pool is needed.
Named among_others() {
    Named made(4);
    Builder &tables = made.tables;
    const auto name = tables.string("name");
    const auto f64 = made.add(tables.scalar(TypeTag::F64), "f64");
    const auto tile = made.add(tables.tile(f64, {16}), "tile<16xf64>");
    tables.producer(tables.string(""));
    tables.global({name, tile, tables.constant(Wire(128)), 8, 1, true});
    tables.function({name, tile, 0, 0, Wire{1, 2}});
    tables.list({tables.di_file(name, name)});
    return made;
}

// The sheet comes before the row, and the row before the room.
void order_of_refusals() {
    const Wire sheet = kinds().tables.sheet();
    Wire damaged = sheet;
    expect(static_cast<bool>(tikomuci::patch_u64(damaged, 8 * 3, 1)), "a producer that is no string");
    const Wire odd(sheet.begin(), sheet.end() - 1);
    for (const Wire &none : {damaged, odd, Wire(), Wire(8 * TIKOMUCI_CONTENTS_WORDS)}) {
        for (const std::uint64_t row : {std::uint64_t{0}, FAR}) {
            puts("no sheet", none, row, 0, SHEET, {});
            puts("no sheet", none, row, 100, SHEET, {});
        }
    }
    const Wire empty = Builder({13, 4, 0}).sheet();
    puts("no types", empty, 0, 0, ABSENT, {});
    puts("no types", empty, 0, 100, ABSENT, {});
    expect(is(tikomuci_type_text(nullptr, 0, 0, nullptr, 0), SHEET), "nothing lent");
    expect(is(tikomuci_type_text(sheet.data(), sheet.size(), FAR, nullptr, 0), ABSENT), "no row and no output");
    expect(is(tikomuci_type_text(sheet.data(), sheet.size(), 0, nullptr, 0), FULL), "no output");
}

// What the wrappers add: spans that overlap, a limit of their own, and no memory for it.
void wrappers() {
    Wire sheet = kinds().tables.sheet();
    const Wire kept = sheet;
    expect(tikomuci::type_text(sheet, 0, Output(sheet).last(8)).outcome() == tikomuci::OVERLAPPING && sheet == kept,
           "an output inside the sheet");
    const auto tables = Sheet::open(sheet, {});
    std::array<std::byte, 8> out{};
    expect(tables && tables->type_text(0, out).value_or(0) == 3 && out[0] == std::byte{'f'}, "a row of a sheet");
    expect(tables->type_text(1, 7).outcome() == FULL && tables->type_text(FAR).outcome() == ABSENT, "and its refusals");
    auto text = tables->type_text(1, 8);
    expect(text && text->view() == "ptr<f32>", "a text of just the most");
    const tikomuci::TypeText moved = std::move(*text);
    expect(moved.view() == "ptr<f32>" && text->view().empty() && text->view().data() != nullptr,
           "a text that is moved");
    expect(Sheet().type_text(0).outcome() == SHEET, "no sheet has no text");
    expect(tables->type_text(0, 0).outcome() == FULL, "no byte");
    expect(tables->type_text(0, FAR).outcome() == Outcome{Refusal::Memory, tikomuci::Stage::Call}, "all bytes");
}

// A text of 4,096 bytes is the longest that is had without asking for more: ? and ", " and eight bytes around them,
// and `i1` in the place of one ?.
void the_most_bytes() {
    std::vector<std::uint64_t> inputs(1363, FAR);
    Builder tables({13, 4, 0});
    const auto i1 = tables.scalar(TypeTag::I1);
    inputs[1] = i1;
    const auto longest = tables.func(inputs, {});
    inputs[2] = i1;
    const auto longer = tables.func(inputs, {});
    const Wire sheet = tables.sheet();
    const auto text = tikomuci::type_text(sheet, longest);
    expect(text && text->view().size() == tikomuci::TYPE_TEXT_BYTES, "a text of 4,096 bytes");
    expect(tikomuci::type_text(sheet, longer).outcome() == FULL, "one of 4,097");
    expect(static_cast<bool>(tikomuci::type_text(sheet, longer, 4097)), "one of 4,097 in as many");
}

// Thirteen types that each name the one before eight times: the last text has 2^39 bytes and more. Nobody waits for it.
void far_longer_texts() {
    Builder tables({13, 4, 0});
    std::uint64_t row = tables.scalar(TypeTag::I1);
    for (int level = 0; level < 13; ++level) {
        row = tables.func(std::vector<std::uint64_t>(8, row), {});
    }
    const Wire sheet = tables.sheet();
    for (const std::size_t room : std::initializer_list<std::size_t>{0, 1, 4096, 65536}) {
        puts("a text of 2^39 bytes", sheet, row, room, FULL, {});
    }
}

// What the call has to answer for a sheet that was changed: 12 as image has it, and else what the model makes.
void agrees(Guarded &memory, const std::string &what, Bytes sheet, Side side) {
    const Wire pool(8);
    const bool well_formed = tikomuci::image(sheet).outcome() != SHEET;
    const auto rows = Sheet::open(sheet, pool);
    expect(rows || !well_formed, what + ": well-formed is opened");
    for (std::uint64_t row = 0; row < 9; ++row) {
        const bool there = well_formed && row < rows->types().size();
        const Wire text = bytes_of(there ? type_model::text_of(*rows, row, 1000).value_or("") : "");
        for (const std::size_t less : {std::size_t{0}, std::size_t{1}}) {
            const std::size_t room = text.size() - std::min(text.size(), less);
            const bool fits = there && room == text.size();
            const Outcome wanted = !well_formed ? SHEET : !there ? ABSENT : fits ? Outcome{} : FULL;
            const Output out = memory.store(room, side);
            expect(is(called(sheet, row, out), wanted, fits ? text.size() : 0), what + ": the answer");
            expect(memory.holds(out, fits ? text : Wire{}), what + ": the output");
        }
    }
}

// Sheets and outputs between pages that cannot be touched: each sheet that is cut, and each word as other words.
void at_guards() {
    Guarded sheets(1);
    Guarded outputs(1);
    Builder tables({13, 4, 0});
    tables.string(Wire(8));
    const auto f32 = tables.scalar(TypeTag::F32);
    tables.pointer(f32, 7);
    const auto view = tables.tensor_view(tables.tile(f32, {4}), {DYNAMIC}, {1});
    tables.partition_view({2}, view, {0}, 3);
    tables.gather_scatter_view({2}, view, 1);
    tables.strided_view({2}, {1}, view, {0});
    tables.func({f32, view}, {f32});
    const Wire whole = tables.sheet();
    for (const Side side : SIDES) {
        agrees(outputs, "a sheet at a guard", sheets.lent(whole, side), side);
        for (std::size_t size = 0; size < whole.size(); ++size) {
            const Wire cut(whole.begin(), whole.begin() + static_cast<std::ptrdiff_t>(size));
            agrees(outputs, "a sheet cut to " + std::to_string(size) + " bytes", sheets.lent(cut, side), side);
        }
        for (std::size_t at = 0; at < whole.size(); at += 8) {
            for (const std::uint64_t word : WORDS) {
                Wire sheet = whole;
                expect(static_cast<bool>(tikomuci::patch_u64(sheet, at, word)), "a word is changed");
                const std::string what = "word " + std::to_string(at / 8) + " as " + std::to_string(word);
                agrees(outputs, what, sheets.lent(sheet, side), side);
            }
        }
    }
}

}  // namespace

void type_text_tests() {
    has_texts("scalars", scalars());
    has_texts("every kind", kinds());
    has_texts("names that are not known", unknown_names());
    has_texts("a file of 13.1", oldest());
    has_texts("types among others", among_others());
    order_of_refusals();
    wrappers();
    the_most_bytes();
    far_longer_texts();
    at_guards();
}
