// A plug-in with the library inside.

#include <array>
#include <tikomuci.hpp>

#define EXPORTED extern "C" __attribute__((visibility("default")))

// Where the plug-in finds a call of the library.
EXPORTED const void *plugin_call() { return reinterpret_cast<const void *>(&tikomuci_constant); }

// Whether its copy refuses a file of no bytes, as each does.
EXPORTED bool plugin_refuses() {
    const std::array<std::uint8_t, 0> file{};
    return !tikomuci::constant(file, 0);
}
