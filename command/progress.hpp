// Says on standard error what is being done to a file that takes more than a second.
#ifndef TIKOMUCI_COMMAND_PROGRESS_HPP
#define TIKOMUCI_COMMAND_PROGRESS_HPP

#include <chrono>
#include <condition_variable>
#include <cstddef>
#include <cstdint>
#include <mutex>
#include <thread>

namespace command {

/// One line, written over and over by a thread of its own: a call of the library says nothing until it has ended. There
/// is neither line nor thread if standard error is no terminal.
class Progress {
  public:
    /// For so many files, one after the other. What is begun behind the last of them has no number.
    explicit Progress(std::size_t files);

    /// A file is begun, or what comes behind all of them.
    void begin();

    /// What is done to it from now on, and how many bytes that takes; 0 if nobody knows.
    void now(const char *what, std::uint64_t total = 0);

    /// The same for what goes to standard output. If that is a terminal, the line would stand in the text, and is gone.
    void now_printing();

    void advance(std::uint64_t bytes);

    /// Nothing is done. The line is gone: others may write to the terminal.
    void rest();

  private:
    using Clock = std::chrono::steady_clock;

    void watch(const std::stop_token &stop);
    void put_line();
    void erase_line();

    const std::size_t files_;
    std::mutex mutex_;  // of all below
    std::condition_variable_any waiting_;
    std::size_t file_ = 0;
    bool busy_ = false;
    bool visible_ = false;
    Clock::time_point begun_;
    const char *what_ = "";
    std::uint64_t done_ = 0;
    std::uint64_t total_ = 0;
    std::jthread thread_;  // the last, so that it ends before the others do
};

/// Something is done to a file as long as this is there.
class Busy {
  public:
    explicit Busy(Progress &progress) : progress_(progress) { progress_.begin(); }
    ~Busy() { progress_.rest(); }
    Busy(const Busy &) = delete;
    Busy &operator=(const Busy &) = delete;

  private:
    Progress &progress_;
};

}  // namespace command

#endif
