// A fuzz target: any bytes, as a file, as a sheet with its pool and as the stores of a cache, through the text and the
// JSON of the command. A name is a part of the input too.

#include <array>
#include <initializer_list>
#include <string>

#include "../../../command/cache.hpp"
#include "../../../command/container.hpp"
#include "../../../command/escape.hpp"
#include "../../../command/object.hpp"
#include "../../../command/text.hpp"
#include "../../../command/types.hpp"
#include "claims.hpp"
#include "lines.hpp"

namespace {

using namespace fuzz;
using command::Cache;
using command::Container;
using tikomuci::Sheet;

constexpr std::size_t LONGEST_NAME = 40;
constexpr std::size_t LONGEST_TYPE = 200;

// What is put, in memory.
class Memory : public command::Sink {
  public:
    template <typename Put>
    std::string taken(Put put) {
        put(*this);
        flush();
        return std::exchange(text_, {});
    }

  protected:
    void take(std::string_view block) override { text_ += block; }

  private:
    std::string text_;
};

Memory memory;

template <typename Put>
void puts_text(Put put) {
    claim(is_clean(memory.taken(put)), "a text steers no terminal");
}

template <typename Put>
void puts_object(Put put) {
    const std::string line = memory.taken(put);
    claim(is_clean(line), "an object steers no terminal");
    claim(line.find('\n') == line.size() - 1, "an object is one line");
    claim(JsonChecker(line).line(), "an object is JSON");
}

std::uint64_t offset_of(Bytes file, Bytes part) { return static_cast<std::uint64_t>(part.data() - file.data()); }

// The map of the sections has the payload that the library views, and no other that counts; where the library refuses
// the walk, so does the map.
void sections(const Container &container, std::string_view name) {
    const Bytes file = container.file();
    for (const std::uint64_t id : std::initializer_list<std::uint64_t>{0, 1, 2, 3, 4, 5, 6, 7, 8, 127, 129, FAR}) {
        const auto viewed = tikomuci::section(file, id);
        claim(container.counting(id).has_value() == static_cast<bool>(viewed), "what counts can be viewed");
        container.each([&](std::uint64_t number, const command::Section &section) {
            claim(section.id != id || container.counting(id) != number ||
                      (section.offset == offset_of(file, *viewed) && section.length == viewed->size()),
                  "what counts is what is viewed");
        });
        if (viewed) {
            puts_object([&](command::Sink &out) {
                command::object::put_view(out, name, "section", id, offset_of(file, *viewed), *viewed);
            });
        }
    }
    const Outcome judged = tikomuci::section(file, FAR).outcome();
    claim(container.version().has_value() == (judged.stage >= tikomuci::Stage::Sections), "a header tells its version");
    claim(!container.walk() || container.walk()->outcome() || container.walk()->outcome() == judged,
          "the walk is refused as the library refuses it");
    claim(judged == ABSENT || !container.walk() || !container.walk()->outcome(), "and not otherwise");
}

// Each constant begins where the library views it.
void constants(Bytes file, const Sheet &sheet) {
    std::uint64_t at = command::constants_at(file, sheet);
    std::uint64_t number = 0;
    for (const Bytes constant : sheet.constants()) {
        const auto viewed = tikomuci::constant(file, number++);
        claim(viewed && offset_of(file, *viewed) == at && same(*viewed, constant), "a constant is where it is viewed");
        at += constant.size();
    }
}

// What is shown of a type is what the library makes of the whole sheet, and the row's number if that is too long.
void types(const Sheet &sheet, std::string_view name) {
    command::TypeTexts texts(sheet);
    std::array<std::uint8_t, LONGEST_TYPE> room{};
    for (std::uint64_t row = 0; row < sheet.types().size(); ++row) {
        const auto size = sheet.type_text(row, room);
        claim(size || size.outcome() == FULL, "a type of a file has a text");
        const std::string number = "#" + std::to_string(row);
        const std::string_view wanted = size ? command::text_of_bytes(Bytes(room).first(*size)) : number;
        claim(texts.text(row) == wanted, "a type is shown as the library has it");
        puts_object([&](command::Sink &out) { command::object::put_type(out, name, row, wanted); });
    }
}

void shown(const Container &container, std::string_view name, const Sheet &sheet) {
    const std::uint64_t at = command::constants_at(container.file(), sheet);
    puts_text([&](command::Sink &out) { command::text::put_rows(out, sheet, at); });
    puts_object([&](command::Sink &out) { command::object::put_shown(out, name, container, sheet, at); });
}

void as_file(const Container &container, std::string_view name) {
    const Bytes file = container.file();
    const auto size = tikomuci::measure(file);
    const auto tables = tikomuci::read(file);
    claim(tables.outcome() == size.outcome(), "the tables of a file are there if it is accepted");
    puts_text([&](command::Sink &out) {
        command::text::put_verdict(out, name, size.outcome());
        command::text::put_container(out, container, static_cast<bool>(size));
    });
    sections(container, name);
    if (tables) {
        constants(file, tables->sheet());
        types(tables->sheet(), name);
        shown(container, name, tables->sheet());
        puts_object([&](command::Sink &out) { command::object::put_size(out, name, file, *size); });
    } else {
        puts_object([&](command::Sink &out) { command::object::put_shown(out, name, container, size.outcome()); });
        puts_object([&](command::Sink &out) { command::object::put_refusal(out, name, size.outcome()); });
    }
}

// What a slot is said to hold is what its instance fetches.
void held_file(const Cache &cache, Bytes owners, Bytes buffer, const command::Held &held, std::string_view name) {
    const auto fetch = cache.slots() == TIKOMUCI_CACHE_SLOTS ? tikomuci_cache_fetch : tikomuci_session_fetch;
    const auto fetched = [&](std::uint64_t number) {
        return fetch(buffer.data(), buffer.size(), owners.data(), owners.size(), held.instance, number);
    };
    const auto tables = tikomuci::read(held.file);
    puts_text([&](command::Sink &out) { command::text::put_held(out, name, held, tables.outcome()); });
    if (!tables) {
        claim(tikomuci::outcome_of(fetched(0)) == tables.outcome(), "a damaged file is refused as it is shown");
        puts_object([&](command::Sink &out) { command::object::put_held(out, name, held, tables.outcome()); });
        return;
    }
    const Sheet &sheet = tables->sheet();
    const std::uint64_t first = held.offset + command::constants_at(held.file, sheet);
    std::uint64_t at = first;
    std::uint64_t number = 0;
    for (const Bytes constant : sheet.constants()) {
        const tikomuci_answer answer = fetched(number++);
        claim(answer.refusal == 0 && answer.first == at && answer.second == constant.size() &&
                  same(buffer.subspan(at, constant.size()), constant),
              "a constant is shown where it is fetched");
        at += constant.size();
    }
    claim(tikomuci::outcome_of(fetched(number)) == ABSENT, "all constants are shown");
    puts_text([&](command::Sink &out) { command::text::put_constants(out, sheet, first); });
    puts_object([&](command::Sink &out) { command::object::put_held(out, name, held, sheet, first); });
}

// Two stores are shown as the library judges them.
void as_cache(Bytes owners, Bytes buffer, std::string_view name) {
    const Cache cache(owners, buffer);
    if (const Outcome outcome = cache.outcome(); !outcome) {
        const auto faults = cache.faults();
        claim(!faults.empty(), "there is a reason why two stores are refused");
        puts_text([&](command::Sink &out) { command::text::put_faults(out, faults); });
        puts_object([&](command::Sink &out) { command::object::put_cache(out, name, name, outcome, faults); });
        return;
    }
    claim(cache.faults().empty(), "there is none why they are accepted");
    const auto taken = cache.held();
    puts_text([&](command::Sink &out) { command::text::put_slots(out, cache, taken.size()); });
    puts_object([&](command::Sink &out) { command::object::put_cache(out, name, name, cache, taken.size()); });
    for (const command::Held &held : taken) {
        held_file(cache, owners, buffer, held, name);
    }
}

// An input as a cache of 16 slots that is often well-formed: a byte says of each of the first rows whether it is taken,
// whether it has the instance of row 0, and whether its length is too large; the rest stands in each slot.
void as_made_cache(Bytes input, std::string_view name) {
    const Bytes rows = input.first(std::min<std::size_t>(input.size(), 3));
    const Bytes slot = input.subspan(rows.size());
    std::vector<std::uint64_t> words;
    Wire buffer;
    for (std::size_t k = 0; k < TIKOMUCI_CACHE_SLOTS; ++k) {
        const unsigned bits = k < rows.size() ? rows[k] : 0U;
        words.insert(words.end(), {bits & 1U, (bits & 2U) != 0 ? 0 : k, slot.size() + (bits >> 2U & 1U)});
        buffer.insert(buffer.end(), slot.begin(), slot.end());
    }
    as_cache(little_endian(words), buffer, name);
}

void as_error(std::string_view name) {
    const command::Failure failure{command::Status::Unreadable, std::string(name), "cannot be read"};
    puts_object([&](command::Sink &out) { command::object::put_failure(out, name, failure); });
    puts_text(
        [&](command::Sink &out) { out << command::escaped(name) << command::Quoted{command::bytes_of_text(name)}; });
}

}  // namespace

// The judges of the lines do refuse, and not everything.
extern "C" int LLVMFuzzerInitialize(int *, char ***) {
    using namespace std::string_view_literals;
    for (const std::string_view line :
         {"{}\n"sv, "{\"a\":[0,-12,null,true,{\"b\":\"\\u202e\\ud83c\\udfa7\\\"\"}]}\n"sv}) {
        claim(JsonChecker(line).line(), "JSON is accepted");
    }
    for (const std::string_view line :
         {""sv, "{}"sv, "[]\n"sv, "{}\n\n"sv, "{} {}\n"sv, "{\"a\":1,}\n"sv, "{\"a\" 1}\n"sv, "{\"a\":01}\n"sv,
          "{\"a\":-}\n"sv, "{\"a\":[1 2]}\n"sv, "{\"a\":\"\n\"}\n"sv, "{\"a\":\"\\x41\"}\n"sv,
          "{\"a\":\"\\u12g4\"}\n"sv, "{\"a\":\"\\ud83c\"}\n"sv, "{\"a\":\"\\udfa7\"}\n"sv, "{\"a\":\"}\n"sv,
          "{\"a\":nul}\n"sv}) {
        claim(!JsonChecker(line).line(), "what is no JSON is refused");
    }
    claim(is_clean("a\n\u00e9\u6f22\U0001f3a7"), "what can be read is accepted");
    for (const std::string_view text :
         {"\x1b"sv, "\r"sv, "\0"sv, "\x7f"sv, "\u009b"sv, "\u061c"sv, "\u200f"sv, "\u2028"sv, "\u202e"sv, "\u2069"sv,
          "\xff"sv, "\x80"sv, "\xc3"sv, "\xc0\xaf"sv, "\xed\xa0\x80"sv, "\xf4\x90\x80\x80"sv}) {
        claim(!is_clean(text), "what steers a terminal, or is no UTF-8, is refused");
    }
    return 0;
}

extern "C" int LLVMFuzzerTestOneInput(const std::uint8_t *data, std::size_t size) {
    const Bytes input(data, size);
    const std::string_view name = command::text_of_bytes(input.last(std::min(size, LONGEST_NAME)));
    const Container container(input);
    as_file(container, name);
    as_error(name);
    const Bytes owners = input.first(std::min<std::size_t>(size, TIKOMUCI_CACHE_SLOTS * TIKOMUCI_OWNER_BYTES));
    as_cache(owners, input.subspan(owners.size()), name);
    as_made_cache(input, name);
    const Stores stores = handed(input);
    if (const auto sheet = Sheet::open(stores.sheet, stores.pool)) {
        shown(container, name, *sheet);
    }
    return 0;
}
