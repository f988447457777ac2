#include "session.hpp"

#include "escape.hpp"
#include "object.hpp"

namespace command {

Status failed(Session &session, const std::string &name, const Failure &failure) {
    if (session.call.json) {
        object::put_failure(session.out, name, failure);
    }
    session.errors << "tikomuci: " << escaped(failure.path) << ": " << failure.why << '\n';
    return failure.status;
}

}  // namespace command
