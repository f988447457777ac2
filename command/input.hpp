// Files are read and not mapped: another process may change a file, and the memory that the library judges stays as it
// is.
#ifndef TIKOMUCI_COMMAND_INPUT_HPP
#define TIKOMUCI_COMMAND_INPUT_HPP

#include <cstdint>
#include <string>
#include <vector>

#include "progress.hpp"

namespace command {

/// The bytes of a file, a pipe or a device; of standard input if the path is `-`. No more than a byte over the limit is
/// read: the library refuses that. Throws a Failure if there is nothing to be read.
std::vector<std::uint8_t> read_file(const std::string &path, Progress &progress);

}  // namespace command

#endif
