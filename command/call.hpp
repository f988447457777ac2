// The command line.
#ifndef TIKOMUCI_COMMAND_CALL_HPP
#define TIKOMUCI_COMMAND_CALL_HPP

#include <cstdint>
#include <optional>
#include <string>
#include <string_view>
#include <vector>

namespace command {

enum class Verb { Show, Check, String, Constant, Body, Section, Type, Cache, CacheDemo, Help, Version };

/// The word for one of the first nine.
std::string_view word_of(Verb verb);

/// What the command was called with.
struct Call {
    Verb verb = Verb::Help;
    bool json = false;
    std::vector<std::string> files;
    std::uint64_t number = 0;              // of a row, or the id of a section
    std::string out;                       // of the calls that write bytes
    std::string buffer;                    // of `cache`, whose file is the owner table
    std::vector<std::uint64_t> instances;  // of `cache-demo`, one for each file
    std::optional<std::string> stores;     // of `cache-demo`: what the names of the two that it writes begin with
};

/// Thrown where the command line is not understood.
struct Misuse {
    std::string why;
};

Call understood(const std::vector<std::string> &arguments);

extern const std::string_view HELP;

}  // namespace command

#endif
