// The support desk's example: what a file of Tile IR bytecode holds, in words, and the bytes of one constant.
//     example [FILE [CONSTANT]]   shows FILE, or a sample if none is given, and fetches that constant, or constant 0
//     example --sample OUT        writes the sample to OUT

#include <charconv>
#include <fstream>
#include <iomanip>
#include <iostream>
#include <iterator>
#include <optional>
#include <stdexcept>
#include <string>
#include <vector>

#include "sample.hpp"
#include "tikomuci_tables.hpp"

namespace {

using tikomuci::Bytes;
using tikomuci::Sheet;

// How many bytes of a type the desk's screen has room for.
constexpr std::size_t LONGEST_TYPE = 60;

File load(const std::string &path) {
    std::ifstream stream(path, std::ios::binary);
    if (!stream) {
        throw std::runtime_error(path + ": cannot be opened");
    }
    return File(std::istreambuf_iterator<char>(stream), {});
}

void save(const std::string &path, const File &file) {
    std::ofstream stream(path, std::ios::binary);
    stream.write(reinterpret_cast<const char *>(file.data()), static_cast<std::streamsize>(file.size()));
    if (!stream.flush()) {
        throw std::runtime_error(path + ": cannot be written");
    }
}

// A string of the file. It may be any bytes, or not be there: nothing goes to the desk's screen that is not printable.
std::string name(const Sheet &sheet, std::uint64_t i) {
    const auto bytes = sheet.string(i);
    if (!bytes) {
        return "(no string " + std::to_string(i) + ")";
    }
    std::string text(bytes->begin(), bytes->end());
    for (char &character : text) {
        character = character >= ' ' && character <= '~' ? character : '?';
    }
    return text;
}

// A type as a ticket has it. A file may name a type that is not there, or one whose text nobody could read.
std::string type(const Sheet &sheet, std::uint64_t i) {
    const auto text = sheet.type_text(i, LONGEST_TYPE);
    if (text) {
        return std::string(text->view());
    }
    const bool is_long = text.outcome().refusal == tikomuci::Refusal::Full;
    return (is_long ? "(long type " : "(no type ") + std::to_string(i) + ")";
}

void show_functions(const Sheet &sheet) {
    std::cout << "\nfunction  kind    visible  bytes     name\n";
    std::size_t number = 0;
    for (const tikomuci::Function &row : sheet.functions()) {
        std::cout << std::setw(8) << number++ << std::left << "  " << (row.is_kernel() ? "kernel  " : "helper  ")
                  << std::setw(9) << (row.is_private() ? "private" : "public") << std::setw(10) << row.body.size()
                  << name(sheet, row.name) << std::right << "\n";
    }
}

// The size of the constant says whether the global has its data: a file may name a constant that is not there.
void show_globals(const Sheet &sheet) {
    std::cout << "\n  global  constant  bytes   type              name\n";
    std::size_t number = 0;
    for (const tikomuci::Global &row : sheet.globals()) {
        const auto data = sheet.constant(row.constant);  // a std::optional: empty for a number that no row has
        std::cout << std::setw(8) << number++ << std::left << "  " << std::setw(10) << row.constant << std::setw(8)
                  << (data ? std::to_string(data->size()) : "none") << std::setw(16) << type(sheet, row.type) << "  "
                  << name(sheet, row.name) << std::right << "\n";
    }
}

// The view is a part of the file, exactly the bytes of that constant.
void show_constant(Bytes file, std::uint64_t i) {
    const auto view = tikomuci::constant(file, i);
    must(view.outcome());
    std::cout << "\nconstant " << i << ": " << view->size() << " bytes from offset " << view->data() - file.data()
              << " of the file on" << std::hex << std::setfill('0');
    for (std::size_t at = 0; at < view->size(); ++at) {
        std::cout << (at % 16 == 0 ? "\n  " : " ") << std::setw(2) << unsigned{(*view)[at]};
    }
    std::cout << std::dec << std::setfill(' ') << "\n";
}

// Shows the tables, and then the constant that was asked for; if none was, the first one, where there is one.
void show(const File &file, std::optional<std::uint64_t> asked) {
    const auto tables = tikomuci::read(file);
    must(tables.outcome());
    const Sheet &sheet = tables->sheet();
    std::cout << "Tile IR bytecode " << unsigned{sheet.version().major} << "." << unsigned{sheet.version().minor}
              << ", made by " << (sheet.producer() ? name(sheet, *sheet.producer()) : "(not said)") << "\n"
              << sheet.functions().size() << " functions, " << sheet.globals().size() << " globals, "
              << sheet.constants().size() << " constants, " << sheet.types().size() << " types, "
              << sheet.strings().size() << " strings, " << sheet.attributes().size() << " debug attributes\n";
    show_functions(sheet);
    show_globals(sheet);
    if (asked || !sheet.constants().empty()) {
        show_constant(file, asked.value_or(0));
    }
}

std::uint64_t number(const std::string &text) {
    std::uint64_t value = 0;
    const char *const end = text.data() + text.size();
    const auto [stop, error] = std::from_chars(text.data(), end, value);
    if (error != std::errc{} || stop != end) {
        throw std::runtime_error(text + ": not the number of a constant");
    }
    return value;
}

}  // namespace

int main(int count, char **arguments) try {
    const std::vector<std::string> words(arguments + 1, arguments + count);
    if (words.size() == 2 && words[0] == "--sample") {
        save(words[1], sample());
    } else if (words.size() <= 2) {
        show(words.empty() ? sample() : load(words[0]),
             words.size() == 2 ? std::optional(number(words[1])) : std::nullopt);
    } else {
        throw std::runtime_error("usage: example [FILE [CONSTANT]], or example --sample OUT");
    }
    return 0;
} catch (const std::exception &error) {
    std::cerr << "example: " << error.what() << "\n";
    return 1;
}
