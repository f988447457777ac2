// kernels FILE: the name of each kernel in a file of Tile IR bytecode, and the size of its body.

#include <exception>
#include <fstream>
#include <iostream>
#include <iterator>
#include <string>
#include <tikomuci_tables.hpp>
#include <vector>

int main(int count, char **arguments) try {
    if (count != 2) {
        std::cerr << "usage: kernels FILE\n";
        return 2;
    }
    std::ifstream stream(arguments[1], std::ios::binary);
    if (!stream) {
        std::cerr << arguments[1] << ": cannot be opened\n";
        return 2;
    }
    const std::vector<std::uint8_t> file(std::istreambuf_iterator<char>(stream), {});

    const auto tables = tikomuci::read(file);
    if (!tables) {
        std::cerr << arguments[1] << ": refused: " << tikomuci::refusal_text(tables.outcome().refusal) << ", "
                  << tikomuci::stage_text(tables.outcome().stage) << "\n";
        return 1;
    }
    const tikomuci::Sheet &sheet = tables->sheet();
    for (const tikomuci::Function &function : sheet.functions()) {
        if (function.is_kernel()) {
            const auto name = sheet.string(function.name);  // nothing if the file has no such string
            std::cout << (name ? std::string(name->begin(), name->end()) : "(no name)") << ": " << function.body.size()
                      << " bytes\n";
        }
    }
    return 0;
} catch (const std::exception &error) {
    std::cerr << error.what() << "\n";
    return 2;
}
