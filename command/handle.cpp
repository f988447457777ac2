#include "handle.hpp"

#include <unistd.h>

#include <algorithm>
#include <cerrno>
#include <utility>

namespace command {

namespace {

// How many bytes are written at once, so that there is progress to be seen.
constexpr std::size_t CHUNK = std::size_t{1} << 20U;

template <typename Call>
ssize_t uninterrupted(Call call) {
    ssize_t done = -1;
    do {
        done = call();
    } while (done < 0 && errno == EINTR);
    return done;
}

}  // namespace

bool Handle::close() { return !is_open() || ::close(std::exchange(number_, -1)) == 0; }

void Handle::reset(int number) {
    close();
    number_ = number;
}

ssize_t read_some(int file, tikomuci::Output bytes) {
    return uninterrupted([&] { return read(file, bytes.data(), bytes.size()); });
}

bool write_all(int file, tikomuci::Bytes bytes, Progress *progress) {
    while (!bytes.empty()) {
        const ssize_t done = uninterrupted([&] { return write(file, bytes.data(), std::min(CHUNK, bytes.size())); });
        if (done < 0) {
            return false;
        }
        bytes = bytes.subspan(static_cast<std::size_t>(done));
        if (progress != nullptr) {
            progress->advance(static_cast<std::uint64_t>(done));
        }
    }
    return true;
}

}  // namespace command
