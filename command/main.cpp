// The command `tikomuci`: shows and checks files of Tile IR bytecode, takes parts out of them, and shows caches.

#include <fcntl.h>
#include <unistd.h>

#include <csignal>
#include <new>

#include "escape.hpp"
#include "run.hpp"

namespace {

using command::Status;

// Descriptors that were closed are opened, so that no file gets their numbers; reading and writing them still fails.
void hold_standard_descriptors() {
    for (const int number : {STDIN_FILENO, STDOUT_FILENO, STDERR_FILENO}) {
        if (fcntl(number, F_GETFD) == -1) {
            open("/dev/null", number == STDIN_FILENO ? O_WRONLY : O_RDONLY);
        }
    }
}

Status ended(command::Sink &errors, std::string_view why, Status status) {
    errors << "tikomuci: " << command::escaped(why) << '\n';
    errors.flush();
    return status;
}

Status run(const std::vector<std::string> &arguments, command::Sink &errors) {
    try {
        return command::run(command::understood(arguments), errors);
    } catch (const command::Misuse &misuse) {
        return ended(errors, misuse.why + "; see tikomuci --help", Status::Misused);
    } catch (const command::OutputLost &lost) {
        return ended(errors, "standard output: " + lost.why, Status::Unwritten);
    }
}

}  // namespace

int main(int count, char **arguments) {
    hold_standard_descriptors();
    // A file that grows too large is then a write that fails.
    std::signal(SIGXFSZ, SIG_IGN);
    command::StandardError errors;
    try {
        return static_cast<int>(run({arguments + 1, arguments + count}, errors));
    } catch (const std::bad_alloc &) {
        return static_cast<int>(ended(errors, "there is not enough memory", Status::Memory));
    }
}
