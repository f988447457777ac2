// One call of the command, file after file.
#ifndef TIKOMUCI_COMMAND_SESSION_HPP
#define TIKOMUCI_COMMAND_SESSION_HPP

#include <cstdint>
#include <new>
#include <string>
#include <vector>

#include "call.hpp"
#include "progress.hpp"
#include "sink.hpp"
#include "status.hpp"

namespace command {

struct Session {
    const Call &call;
    Progress &progress;
    Sink &out;
    Sink &errors;
    bool shown = false;  // whether a file was, as text
};

using File = std::vector<std::uint8_t>;

/// Says what could not be done to a file.
Status failed(Session &session, const std::string &name, const Failure &failure);

/// Does something to a file, or says why not. What is said of it is seen before the next one is read.
template <typename Task>
Status done_or_failed(Session &session, const std::string &name, Task task) {
    Status status = Status::Memory;
    try {
        const Busy busy(session.progress);
        status = task();
    } catch (const Failure &failure) {
        status = failed(session, name, failure);
    } catch (const std::bad_alloc &) {
        status = failed(session, name, {Status::Memory, name, "there is not enough memory"});
    }
    session.out.flush();
    session.errors.flush();
    return status;
}

}  // namespace command

#endif
