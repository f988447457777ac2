// What the tests share: how a check is counted, and the files that they are run on.
#ifndef TIKOMUCI_CHECK_HPP
#define TIKOMUCI_CHECK_HPP

#include <cstdint>
#include <cstdio>
#include <limits>
#include <string>
#include <vector>

#include "tikomuci.hpp"

using Wire = std::vector<std::uint8_t>;

constexpr std::uint8_t CANARY = 0xA5;
constexpr tikomuci::Outcome FULL{tikomuci::Refusal::Full, tikomuci::Stage::Call};
constexpr tikomuci::Outcome SHEET{tikomuci::Refusal::Sheet, tikomuci::Stage::Call};
constexpr tikomuci::Outcome ABSENT{tikomuci::Refusal::Absent, tikomuci::Stage::Call};
constexpr std::uint64_t FAR = std::numeric_limits<std::uint64_t>::max();

inline int passed = 0;
inline int failed = 0;

inline void expect(bool holds, const std::string &what) {
    if (holds) {
        ++passed;
    } else {
        ++failed;
        std::printf("FAILED: %s\n", what.c_str());
    }
}

inline Wire nine(std::uint8_t byte, std::uint8_t last) {
    Wire wire(9, byte);
    wire.push_back(last);
    return wire;
}

// The words of a sheet as the bytes that are lent.
inline Wire little_endian(const std::vector<std::uint64_t> &words) {
    Wire bytes;
    for (const std::uint64_t word : words) {
        for (unsigned shift = 0; shift < 64; shift += 8) {
            bytes.push_back(static_cast<std::uint8_t>(word >> shift));
        }
    }
    return bytes;
}

// Document 01's whole case: one String section of 15 bytes from place 16 on, which holds "a" and "bc".
inline Wire whole_case() {
    return {0x7F, 'T',  'i',  'l',  'e', 'I', 'R', 0x00, 13, 1, 0, 0, 0x81, 0x0F, 4,   0xCB,
            2,    0xCB, 0xCB, 0xCB, 0,   0,   0,   0,    1,  0, 0, 0, 'a',  'b',  'c', 0};
}

// Its sheet: version 13.1, no producer, a pool of 3 bytes; two strings from word 19 on and no other row.
inline std::vector<std::uint64_t> whole_case_sheet() {
    return {13, 1, 0, 0, 3, 19, 2, 21, 0, 21, 0, 21, 0, 21, 0, 21, 0, 21, 0, 1, 2};
}

inline Wire whole_case_pool() { return {'a', 'b', 'c'}; }

// A file with a row in every table, byte by byte. Sections that have no alignment bit stand where they happen to.
inline Wire every_table() {
    return {
        0x7F, 'T',  'i',  'l',  'e',  'I',  'R',  0x00,  // 0: the magic
        13,   4,    0,    0,                             // 8: version 13.4, tag 0
        0x81, 17,   4,    0xCB,                          // 12: String, 17 bytes, aligned to 4, one byte of padding
        2,    0xCB, 0xCB, 0xCB,                          // 16: two strings, padding to 4
        0,    0,    0,    0,    1,    0,    0,    0,     // 20: they start at 0 and 1
        'k',  'm',  'a',  'i',  'n',                     // 28: "k" and "main"
        7,    1,    1,                                   // 33: Producer, 1 byte: string 1
        5,    17,                                        // 36: Type, 17 bytes
        2,    0xCB, 0xCB, 0xCB,                          // 38: two types, padding to 4
        0,    0,    0,    0,    1,    0,    0,    0,     // 42: they start at 0 and 1
        3,                                               // 50: I32
        16,   1,    0,    0,                             // 51: Func, one input of type 0, no result
        0x84, 19,   8,                                   // 55: Constant, 19 bytes, aligned to 8
        0xCB, 0xCB, 0xCB, 0xCB, 0xCB, 0xCB,              // 58: six bytes of padding
        1,    0xCB, 0xCB, 0xCB, 0xCB, 0xCB, 0xCB, 0xCB,  // 64: one constant, padding to 8
        0,    0,    0,    0,    0,    0,    0,    0,     // 72: it starts at 0
        0xDE, 0xAD, 0xBE,                                // 80: its three bytes
        6,    7,                                         // 83: Global, 7 bytes
        1,    0,    0,    0,    16,   1,    5,  // 85: a global: string 0, type 0, constant 0, alignment 16, 1, 5
        2,    10,                               // 92: Func, 10 bytes
        1,    1,    1,    2,    1,    4,        // 94: a function: string 1, type 1, flags 2, location 1, 4 bytes
        0x0A, 0x0B, 0x0C, 0x0D,                 // 100: the body
        3,    35,                               // 104: Debug, 35 bytes
        1,    0xCB, 0xCB, 0xCB,                 // 106: one list, padding to 4
        0,    0,    0,    0,                    // 110: it starts at id 0
        1,    0xCB, 0xCB, 0xCB, 0xCB, 0xCB, 0xCB, 0xCB,  // 114: one id, padding to 8
        1,    0,    0,    0,    0,    0,    0,    0,     // 122: it is 1
        1,    0xCB, 0xCB, 0xCB,                          // 130: one attribute, padding to 4
        0,    0,    0,    0,                             // 134: it starts at 0
        2,    0,    1,                                   // 138: DIFile, string 0 in string 1
        0,                                               // 141: the end
    };
}

inline std::vector<std::uint64_t> every_table_sheet() {
    return {
        13, 4, 0,  2,  12,                                 // 0: version 13.4.0, producer 1, a pool of 12 bytes
        19, 2, 21, 2,  28, 1, 29, 1, 35, 1, 40, 1, 47, 1,  // 5: start word and row count of the seven tables
        1,  4,                                             // 19: the lengths of the strings
        1,  3, 4,  16, 1,  0, 0,                           // 21: I32; Func, one input, type 0, no results
        3,                                                 // 28: the length of the constant
        0,  0, 0,  16, 1,  1,                              // 29: the global
        1,  1, 2,  1,  4,                                  // 35: the function
        2,  0, 1,  0,  0,  0, 0,                           // 40: the attribute
        1,  1,                                             // 47: the list
    };
}

inline Wire every_table_pool() { return {'k', 'm', 'a', 'i', 'n', 0xDE, 0xAD, 0xBE, 0x0A, 0x0B, 0x0C, 0x0D}; }

#endif
