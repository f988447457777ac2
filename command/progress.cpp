#include "progress.hpp"

#include <unistd.h>

#include <array>
#include <csignal>
#include <cstdio>
#include <system_error>

namespace command {

namespace {

using namespace std::chrono_literals;

constexpr auto PATIENCE = 1s;
constexpr auto BETWEEN = 200ms;
constexpr unsigned MIB = 20;

// Narrower than any terminal, so that one line is one line.
constexpr int WIDTH = 72;

}  // namespace

Progress::Progress(std::size_t files) : files_(files) {
    if (isatty(STDERR_FILENO) == 0) {
        return;
    }
    try {
        thread_ = std::jthread([this](const std::stop_token &stop) { watch(stop); });
    } catch (const std::system_error &) {
        // Without a thread there is no progress to be seen, and all else goes on.
    }
}

void Progress::begin() {
    const std::lock_guard lock(mutex_);
    ++file_;
    busy_ = true;
    begun_ = Clock::now();
}

void Progress::now(const char *what, std::uint64_t total) {
    const std::lock_guard lock(mutex_);
    what_ = what;
    done_ = 0;
    total_ = total;
}

void Progress::now_printing() {
    if (isatty(STDOUT_FILENO) != 0) {
        rest();
    } else {
        now("printing");
    }
}

void Progress::advance(std::uint64_t bytes) {
    const std::lock_guard lock(mutex_);
    done_ += bytes;
}

void Progress::rest() {
    const std::lock_guard lock(mutex_);
    busy_ = false;
    erase_line();
}

void Progress::watch(const std::stop_token &stop) {
    // A signal is for the thread that knows what has to be removed before the end.
    sigset_t all;
    sigfillset(&all);
    pthread_sigmask(SIG_BLOCK, &all, nullptr);
    std::unique_lock lock(mutex_);
    while (!stop.stop_requested()) {
        waiting_.wait_for(lock, stop, BETWEEN, [] { return false; });
        if (busy_ && Clock::now() - begun_ >= PATIENCE) {
            put_line();
        }
    }
}

void Progress::put_line() {
    std::array<char, WIDTH> of_files{};
    std::array<char, WIDTH> amount{};
    if (files_ > 1 && file_ <= files_) {
        std::snprintf(of_files.data(), of_files.size(), "file %zu of %zu, ", file_, files_);
    }
    if (total_ != 0) {
        std::snprintf(amount.data(), amount.size(), " %ju of %ju MiB,", std::uintmax_t{done_ >> MIB},
                      std::uintmax_t{total_ >> MIB});
    } else if (done_ != 0) {
        std::snprintf(amount.data(), amount.size(), " %ju MiB,", std::uintmax_t{done_ >> MIB});
    }
    const auto seconds = std::chrono::duration_cast<std::chrono::seconds>(Clock::now() - begun_);
    std::array<char, 3 * WIDTH> line{};
    std::snprintf(line.data(), line.size(), "tikomuci: %s%s,%s %jd s", of_files.data(), what_, amount.data(),
                  std::intmax_t{seconds.count()});
    std::fprintf(stderr, "\r%-*.*s", WIDTH, WIDTH, line.data());
    visible_ = true;
}

void Progress::erase_line() {
    if (visible_) {
        std::fprintf(stderr, "\r%*s\r", WIDTH, "");
    }
    visible_ = false;
}

}  // namespace command
