#include "input.hpp"

#include <fcntl.h>
#include <sys/stat.h>
#include <unistd.h>

#include <algorithm>
#include <cerrno>
#include <cstring>

#include "handle.hpp"
#include "status.hpp"

namespace command {

namespace {

constexpr std::size_t MOST = TIKOMUCI_MAX_FILE_BYTES + 1;
constexpr std::size_t CHUNK = std::size_t{1} << 20U;

int open_file(const std::string &path) {
    return path == "-" ? fcntl(STDIN_FILENO, F_DUPFD_CLOEXEC, 0) : open(path.c_str(), O_RDONLY | O_CLOEXEC);
}

Failure unreadable(const std::string &path) { return {Status::Unreadable, path, std::strerror(errno)}; }

// How many bytes there are to be read; 0 if nobody knows, as of a pipe.
std::size_t expected_size(int file) {
    struct stat about {};
    if (fstat(file, &about) != 0 || !S_ISREG(about.st_mode)) {
        return 0;
    }
    return std::min(MOST, static_cast<std::size_t>(about.st_size));
}

// Some room behind the bytes, and where it begins. No more is reserved than a file may have.
std::size_t make_room(std::vector<std::uint8_t> &bytes) {
    const std::size_t had = bytes.size();
    if (had == bytes.capacity()) {
        bytes.reserve(std::min(MOST, std::max(CHUNK, 2 * had)));
    }
    bytes.resize(std::min({MOST, bytes.capacity(), had + CHUNK}));
    return had;
}

}  // namespace

std::vector<std::uint8_t> read_file(const std::string &path, Progress &progress) {
    const Handle file(open_file(path));
    if (!file.is_open()) {
        throw unreadable(path);
    }
    const std::size_t expected = expected_size(file.number());
    progress.now("reading", expected);
    std::vector<std::uint8_t> bytes;
    bytes.reserve(std::min(MOST, expected + 1));  // one more, for the read that finds the end
    while (bytes.size() < MOST) {
        const std::size_t had = make_room(bytes);
        const ssize_t got = read_some(file.number(), tikomuci::Output(bytes).subspan(had));
        if (got < 0) {
            throw unreadable(path);
        }
        bytes.resize(had + static_cast<std::size_t>(got));
        if (got == 0) {
            break;
        }
        progress.advance(static_cast<std::uint64_t>(got));
    }
    return bytes;
}

}  // namespace command
