#include "output.hpp"

#include <fcntl.h>
#include <sys/stat.h>
#include <unistd.h>

#include <cerrno>
#include <cstring>

#include "escape.hpp"
#include "handle.hpp"
#include "replace.hpp"
#include "status.hpp"

namespace command {

namespace {

using tikomuci::Bytes;

void write_standard_output(Bytes bytes, Progress &progress) {
    if (!write_all(STDOUT_FILENO, bytes, &progress)) {
        throw OutputLost{std::strerror(errno)};
    }
}

// A device or a pipe is written to. Nothing may take its place.
bool is_special(const std::string &path) {
    struct stat about {};
    return stat(path.c_str(), &about) == 0 && !S_ISREG(about.st_mode);
}

bool write_into(const std::string &path, Bytes bytes, Progress &progress) {
    Handle file(open(path.c_str(), O_WRONLY | O_CLOEXEC));
    return file.is_open() && write_all(file.number(), bytes, &progress) && file.close();
}

}  // namespace

void StandardOutput::take(std::string_view block) { write_standard_output(bytes_of_text(block), progress_); }

void StandardError::take(std::string_view block) { write_all(STDERR_FILENO, bytes_of_text(block), nullptr); }

void write_out(const std::string &path, Bytes bytes, Progress &progress) {
    if (path == "-") {
        write_standard_output(bytes, progress);
    } else if (!(is_special(path) ? write_into(path, bytes, progress) : replace_file(path, bytes, progress))) {
        throw Failure{Status::Unwritten, path, std::strerror(errno)};
    }
}

}  // namespace command
