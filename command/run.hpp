// What the command does.
#ifndef TIKOMUCI_COMMAND_RUN_HPP
#define TIKOMUCI_COMMAND_RUN_HPP

#include "call.hpp"
#include "output.hpp"
#include "progress.hpp"
#include "status.hpp"

namespace command {

/// Does to all files what was asked for; the gravest status counts. Throws OutputLost.
Status run(const Call &call, Sink &errors);

}  // namespace command

#endif
