// Tests of docs/FORMAT.md: the files that it spells are read as the words and the pool beside them, and written from
// them as the bytes that it has; the types have the texts beside them. They are run from the folder of the repository.

#include <fstream>
#include <sstream>
#include <string>
#include <vector>

#include "check.hpp"
#include "tikomuci_tables.hpp"

namespace {

// What stands between "```" and a name, and the next "```".
std::vector<std::vector<std::string>> blocks(const std::string &name) {
    std::ifstream document("docs/FORMAT.md");
    std::vector<std::vector<std::string>> blocks;
    bool inside = false;
    for (std::string line; std::getline(document, line);) {
        if (line.rfind("```", 0) == 0) {
            inside = !inside && line == "```" + name;
            if (inside) {
                blocks.emplace_back();
            }
        } else if (inside) {
            blocks.back().push_back(line);
        }
    }
    return blocks;
}

// The numbers of a block. What a line says of its numbers stands three blanks behind them.
template <typename Number>
std::vector<Number> numbers(const std::vector<std::string> &block, int base) {
    std::vector<Number> numbers;
    for (const std::string &line : block) {
        std::istringstream words(line.substr(0, line.find("   ")));
        for (std::string word; words >> word;) {
            numbers.push_back(static_cast<Number>(std::stoull(word, nullptr, base)));
        }
    }
    return numbers;
}

// A store that begins with the bytes of a block. All others are 0.
Wire store(const std::vector<std::string> &block, std::size_t size) {
    Wire bytes = numbers<std::uint8_t>(block, 16);
    bytes.resize(size);
    return bytes;
}

// Each type of the sheet has its text, and there are no others.
void type_texts_of_format() {
    const auto sheets = blocks("sheet");
    const auto texts = blocks("texts");
    expect(sheets.size() == 1 && texts.size() == 1, "a sheet and the texts of its types");
    if (sheets.size() != 1 || texts.size() != 1) {
        return;
    }
    const Wire sheet = little_endian(numbers<std::uint64_t>(sheets[0], 10));
    for (std::size_t row = 0; row < texts[0].size(); ++row) {
        const auto text = tikomuci::type_text(sheet, row);
        expect(text && text->view() == texts[0][row], "type " + std::to_string(row) + " of FORMAT.md has its text");
    }
    expect(tikomuci::type_text(sheet, texts[0].size()).outcome() == ABSENT, "FORMAT.md has the texts of all types");
}

// The two files are put, fetched, and one of them is dropped: each time the stores are those that it has.
void cache_tests_of_format() {
    const auto tables = blocks("owners");
    const auto slots = blocks("slots");
    expect(tables.size() == 2 && slots.size() == 2, "a cache before and after a drop");
    if (tables.size() != 2 || slots.size() != 2) {
        return;
    }
    Wire owners(TIKOMUCI_CACHE_SLOTS * TIKOMUCI_OWNER_BYTES);
    Wire cache(TIKOMUCI_CACHE_SLOTS * std::size_t{40});
    const auto is = [&](std::size_t state) {
        return owners == store(tables[state], owners.size()) && cache == store(slots[state], cache.size());
    };
    const Wire files = store(slots[0], cache.size());
    const auto put = [&](std::uint64_t instance, std::size_t slot) {
        const auto answer = tikomuci_cache_put(cache.data(), cache.size(), owners.data(), owners.size(), instance,
                                               &files[40 * slot], 35);
        return answer.refusal == 0 && answer.first == slot;
    };
    const auto fetched = [&](std::uint64_t instance, std::uint64_t offset) {
        const auto answer = tikomuci_cache_fetch(cache.data(), cache.size(), owners.data(), owners.size(), instance, 0);
        return answer.refusal == 0 && answer.first == offset && answer.second == 2;
    };
    expect(put(7, 0) && put(300, 1) && is(0), "the cache of FORMAT.md is filled as it says");
    expect(fetched(7, 32) && fetched(300, 72) && !fetched(1, 32), "its constants are fetched as it says");
    const auto dropped = tikomuci_cache_drop(cache.data(), cache.size(), owners.data(), owners.size(), 7);
    expect(dropped.refusal == 0 && dropped.first == 0 && is(1), "a file is dropped as it says");
}

}  // namespace

void format_tests() {
    cache_tests_of_format();
    type_texts_of_format();
    const auto files = blocks("bytes");
    const auto sheets = blocks("words");
    const auto pools = blocks("pool");
    expect(files.size() == 2 && sheets.size() == 2 && pools.size() == 2, "two files, with their words and pools");
    for (std::size_t i = 0; i < files.size() && i < sheets.size() && i < pools.size(); ++i) {
        const std::string what = "file " + std::to_string(i) + " of FORMAT.md";
        const Wire file = numbers<std::uint8_t>(files[i], 16);
        const Wire words = little_endian(numbers<std::uint64_t>(sheets[i], 10));
        const Wire bytes = numbers<std::uint8_t>(pools[i], 16);
        Wire sheet(words.size());
        Wire pool(bytes.size());
        expect(tikomuci::read(file, sheet, pool) && sheet == words && pool == bytes, what + " is read as it says");
        Wire image(file.size());
        expect(tikomuci::write(words, bytes, image) && image == file, what + " is written as it says");
    }
}
