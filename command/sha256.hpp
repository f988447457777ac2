// The checksum of a constant, a body or a payload: SHA-256, as FIPS 180-4 has it and as sha256sum prints it.
#ifndef TIKOMUCI_COMMAND_SHA256_HPP
#define TIKOMUCI_COMMAND_SHA256_HPP

#include <array>

#include "tikomuci.hpp"

namespace command {

std::array<std::uint8_t, 32> sha256(tikomuci::Bytes bytes);

}  // namespace command

#endif
