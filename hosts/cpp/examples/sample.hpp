// A small file for the example and the tests, made from typed rows.
#ifndef TIKOMUCI_SAMPLE_HPP
#define TIKOMUCI_SAMPLE_HPP

#include <array>
#include <cstdint>
#include <stdexcept>
#include <string>
#include <vector>

#include "tikomuci_builder.hpp"

using File = std::vector<std::uint8_t>;

// A refusal as a line that the desk can read out: what is wrong, and in which part of the file if it is the file.
inline void must(tikomuci::Outcome outcome) {
    if (outcome) {
        return;
    }
    std::string line = "refused: " + std::string(tikomuci::refusal_text(outcome.refusal));
    if (outcome.stage != tikomuci::Stage::Call) {
        line += ", " + std::string(tikomuci::stage_text(outcome.stage));
    }
    throw std::runtime_error(line);
}

// The bytes of a noise profile.
inline File profile(const std::array<float, 4> &levels) {
    File bytes(sizeof levels);
    tikomuci::Writer writer(bytes);
    for (const float level : levels) {
        must(writer.le_f32(level));
    }
    return bytes;
}

// Two instances' kernels, a noise profile of four numbers for each, and a function for both. The library does not look
// into the bodies.
inline File sample() {
    tikomuci::Builder tables({13, 4, 0});
    const std::uint64_t f32 = tables.scalar(tikomuci::TypeTag::F32);
    const std::uint64_t levels = tables.tile(f32, {4});
    const std::uint64_t plain = tables.func({}, {});

    const auto function = [&](const std::string &name, std::uint64_t flags, const File &body) {
        tables.function({.name = tables.string(name), .signature = plain, .flags = flags, .location = 0, .body = body});
    };
    function("denoise_a", TIKOMUCI_FUNCTION_KERNEL, {1, 2, 3});
    function("denoise_b", TIKOMUCI_FUNCTION_KERNEL, {4, 5, 6, 7, 8});
    function("smooth", TIKOMUCI_FUNCTION_PRIVATE, {9, 10, 11});

    const auto global = [&](const std::string &name, const std::array<float, 4> &numbers) {
        const std::uint64_t constant = tables.constant(profile(numbers));
        tables.global({.name = tables.string(name),
                       .type = levels,
                       .constant = constant,
                       .alignment = 16,
                       .visibility = 1,
                       .is_constant = true});
    };
    global("profile_a", {0.5F, 0.25F, 0.125F, 0.0625F});
    global("profile_b", {1.0F, 2.0F, 3.0F, 4.0F});

    tables.producer(tables.string("sample"));

    const auto file = tables.file();
    must(file.outcome());
    return *file;
}

#endif
