// What the command does with caches.
#ifndef TIKOMUCI_COMMAND_CACHES_HPP
#define TIKOMUCI_COMMAND_CACHES_HPP

#include "session.hpp"

namespace command {

/// Shows who holds which slot of a cache that was dumped. Throws OutputLost.
Status show_cache(Session &session);

/// Puts all files into a new cache, shows who holds which slot, and writes its stores if they are asked for. Throws
/// OutputLost.
Status demonstrate_cache(Session &session);

}  // namespace command

#endif
