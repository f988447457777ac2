// How a call of the command ends.
#ifndef TIKOMUCI_COMMAND_STATUS_HPP
#define TIKOMUCI_COMMAND_STATUS_HPP

#include <string>

namespace command {

/// The exit status. Of several files the highest counts.
enum class Status {
    Accepted = 0,
    Refused = 1,
    Misused = 2,
    Unreadable = 3,
    Unwritten = 4,
    Memory = 5,
};

/// Thrown where a file or OUT cannot be read or written: what, and why.
struct Failure {
    Status status;
    std::string path;
    std::string why;
};

}  // namespace command

#endif
