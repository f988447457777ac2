#include "sha256.hpp"

#include <algorithm>
#include <bit>

namespace command {

namespace {

using tikomuci::Bytes;
using State = std::array<std::uint32_t, 8>;

constexpr std::size_t BLOCK = 64;
constexpr std::size_t LENGTH_AT = BLOCK - 8;

constexpr State START = {0x6a09e667, 0xbb67ae85, 0x3c6ef372, 0xa54ff53a,
                         0x510e527f, 0x9b05688c, 0x1f83d9ab, 0x5be0cd19};

constexpr std::array<std::uint32_t, 64> ROUND = {
    0x428a2f98, 0x71374491, 0xb5c0fbcf, 0xe9b5dba5, 0x3956c25b, 0x59f111f1, 0x923f82a4, 0xab1c5ed5,
    0xd807aa98, 0x12835b01, 0x243185be, 0x550c7dc3, 0x72be5d74, 0x80deb1fe, 0x9bdc06a7, 0xc19bf174,
    0xe49b69c1, 0xefbe4786, 0x0fc19dc6, 0x240ca1cc, 0x2de92c6f, 0x4a7484aa, 0x5cb0a9dc, 0x76f988da,
    0x983e5152, 0xa831c66d, 0xb00327c8, 0xbf597fc7, 0xc6e00bf3, 0xd5a79147, 0x06ca6351, 0x14292967,
    0x27b70a85, 0x2e1b2138, 0x4d2c6dfc, 0x53380d13, 0x650a7354, 0x766a0abb, 0x81c2c92e, 0x92722c85,
    0xa2bfe8a1, 0xa81a664b, 0xc24b8b70, 0xc76c51a3, 0xd192e819, 0xd6990624, 0xf40e3585, 0x106aa070,
    0x19a4c116, 0x1e376c08, 0x2748774c, 0x34b0bcb5, 0x391c0cb3, 0x4ed8aa4a, 0x5b9cca4f, 0x682e6ff3,
    0x748f82ee, 0x78a5636f, 0x84c87814, 0x8cc70208, 0x90befffa, 0xa4506ceb, 0xbef9a3f7, 0xc67178f2,
};

template <typename Number>
Number big_endian(Bytes bytes) {
    Number number = 0;
    for (const std::uint8_t byte : bytes.first(sizeof(Number))) {
        number = static_cast<Number>(number << 8U | byte);
    }
    return number;
}

template <typename Number>
void put_big_endian(tikomuci::Output out, Number number) {
    for (std::size_t i = sizeof(Number); i-- > 0; number >>= 8U) {
        out[i] = static_cast<std::uint8_t>(number);
    }
}

std::array<std::uint32_t, 64> schedule(Bytes block) {
    std::array<std::uint32_t, 64> w{};
    for (std::size_t i = 0; i < 16; ++i) {
        w[i] = big_endian<std::uint32_t>(block.subspan(4 * i));
    }
    for (std::size_t i = 16; i < w.size(); ++i) {
        const std::uint32_t a = w[i - 15];
        const std::uint32_t b = w[i - 2];
        w[i] = w[i - 16] + (std::rotr(a, 7) ^ std::rotr(a, 18) ^ a >> 3U) + w[i - 7] +
               (std::rotr(b, 17) ^ std::rotr(b, 19) ^ b >> 10U);
    }
    return w;
}

// One round, with the eight numbers by the names that they have in it. The next round has them one name further on.
void round(std::uint32_t a, std::uint32_t b, std::uint32_t c, std::uint32_t &d, std::uint32_t e, std::uint32_t f,
           std::uint32_t g, std::uint32_t &h, std::uint32_t constant_and_word) {
    h += (std::rotr(e, 6) ^ std::rotr(e, 11) ^ std::rotr(e, 25)) + (g ^ (e & (f ^ g))) + constant_and_word;
    d += h;
    h += (std::rotr(a, 2) ^ std::rotr(a, 13) ^ std::rotr(a, 22)) + ((a & b) | (c & (a | b)));
}

State after(const State &state, Bytes block) {
    const std::array<std::uint32_t, 64> w = schedule(block);
    auto [a, b, c, d, e, f, g, h] = state;
    for (std::size_t i = 0; i < w.size(); i += 8) {
        round(a, b, c, d, e, f, g, h, ROUND[i] + w[i]);
        round(h, a, b, c, d, e, f, g, ROUND[i + 1] + w[i + 1]);
        round(g, h, a, b, c, d, e, f, ROUND[i + 2] + w[i + 2]);
        round(f, g, h, a, b, c, d, e, ROUND[i + 3] + w[i + 3]);
        round(e, f, g, h, a, b, c, d, ROUND[i + 4] + w[i + 4]);
        round(d, e, f, g, h, a, b, c, ROUND[i + 5] + w[i + 5]);
        round(c, d, e, f, g, h, a, b, ROUND[i + 6] + w[i + 6]);
        round(b, c, d, e, f, g, h, a, ROUND[i + 7] + w[i + 7]);
    }
    return {state[0] + a, state[1] + b, state[2] + c, state[3] + d,
            state[4] + e, state[5] + f, state[6] + g, state[7] + h};
}

// What is left behind the whole blocks, a bit that is set, zeros, and how many bits there were: one block or two.
State after_last(State state, Bytes rest, std::uint64_t size) {
    std::array<std::uint8_t, 2 * BLOCK> last{};
    std::copy(rest.begin(), rest.end(), last.begin());
    last[rest.size()] = 0x80;
    const std::size_t blocks = rest.size() < LENGTH_AT ? 1 : 2;
    const tikomuci::Output padded = tikomuci::Output(last).first(blocks * BLOCK);
    put_big_endian(padded.last(8), 8 * size);
    for (std::size_t at = 0; at < padded.size(); at += BLOCK) {
        state = after(state, padded.subspan(at, BLOCK));
    }
    return state;
}

}  // namespace

std::array<std::uint8_t, 32> sha256(Bytes bytes) {
    State state = START;
    Bytes rest = bytes;
    for (; rest.size() >= BLOCK; rest = rest.subspan(BLOCK)) {
        state = after(state, rest.first(BLOCK));
    }
    state = after_last(state, rest, bytes.size());
    std::array<std::uint8_t, 32> sum{};
    for (std::size_t i = 0; i < state.size(); ++i) {
        put_big_endian(tikomuci::Output(sum).subspan(4 * i), state[i]);
    }
    return sum;
}

}  // namespace command
