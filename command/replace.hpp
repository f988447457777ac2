// A file that takes the place of another when it is whole.
#ifndef TIKOMUCI_COMMAND_REPLACE_HPP
#define TIKOMUCI_COMMAND_REPLACE_HPP

#include <string>

#include "progress.hpp"
#include "tikomuci.hpp"

namespace command {

/// Makes a regular file with these bytes, in the place of the one that is there. Who sees the path sees the old file or
/// the new one, and nothing between them; the new one has the old one's mode, and its owner as far as that is allowed.
/// False if it cannot be done; errno says why, and the old file is as it was.
bool replace_file(const std::string &path, tikomuci::Bytes bytes, Progress &progress);

}  // namespace command

#endif
