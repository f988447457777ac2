#include "replace.hpp"

#include <fcntl.h>
#include <sys/stat.h>
#include <unistd.h>

#include <array>
#include <cerrno>
#include <climits>
#include <csignal>
#include <cstdio>
#include <cstdlib>
#include <memory>

#include "handle.hpp"

namespace command {

namespace {

constexpr mode_t PERMISSIONS = 0777;
constexpr mode_t NEW_FILE = 0666;  // less what the user's mask takes
constexpr int TRIES = 100;
constexpr std::array<int, 3> ENDING = {SIGHUP, SIGINT, SIGTERM};

// A file to be removed by the handler below, which can be told nothing but the signal.
std::array<char, PATH_MAX> unfinished{};

// By then the signal has its default action again, which is to end the program.
extern "C" void remove_and_end(int signal) {
    unlink(unfinished.data());
    raise(signal);
}

// As long as this is there, signals that would end the program wait.
class SignalsWait {
  public:
    SignalsWait() {
        sigset_t ending;
        sigemptyset(&ending);
        for (const int signal : ENDING) {
            sigaddset(&ending, signal);
        }
        pthread_sigmask(SIG_BLOCK, &ending, &before_);
    }
    ~SignalsWait() { pthread_sigmask(SIG_SETMASK, &before_, nullptr); }
    SignalsWait(const SignalsWait &) = delete;
    SignalsWait &operator=(const SignalsWait &) = delete;

  private:
    sigset_t before_{};
};

// A new file beside another one. As long as this is there, a signal that ends the program removes the file first; a
// signal that is ignored stays ignored.
class Beside {
  public:
    explicit Beside(const std::string &path) : file_(-1) {
        const SignalsWait wait;
        create(path.substr(0, path.rfind('/') + 1) + ".tikomuci-" + std::to_string(getpid()) + "-");
        if (file_.is_open()) {
            arm();
        }
    }
    ~Beside() {
        for (std::size_t i = 0; armed_ && i < ENDING.size(); ++i) {
            sigaction(ENDING[i], &before_[i], nullptr);
        }
    }
    Beside(const Beside &) = delete;
    Beside &operator=(const Beside &) = delete;

    [[nodiscard]] Handle &file() { return file_; }
    [[nodiscard]] const char *name() const { return name_.c_str(); }

  private:
    void create(const std::string &prefix) {
        for (int i = 0; i < TRIES && !file_.is_open() && (i == 0 || errno == EEXIST); ++i) {
            name_ = prefix + std::to_string(i);
            file_.reset(open(name_.c_str(), O_WRONLY | O_CREAT | O_EXCL | O_CLOEXEC, NEW_FILE));
        }
    }

    void arm() {
        unfinished[name_.copy(unfinished.data(), unfinished.size() - 1)] = '\0';
        struct sigaction remove {};
        remove.sa_handler = remove_and_end;
        remove.sa_flags = static_cast<int>(SA_RESETHAND);
        for (std::size_t i = 0; i < ENDING.size(); ++i) {
            sigaction(ENDING[i], nullptr, &before_[i]);
            if (before_[i].sa_handler != SIG_IGN) {
                sigaction(ENDING[i], &remove, nullptr);
            }
        }
        armed_ = true;
    }

    std::string name_;
    Handle file_;
    std::array<struct sigaction, ENDING.size()> before_{};
    bool armed_ = false;
};

// What a link leads to; a path that leads nowhere stays as it is.
std::string followed(const std::string &path) {
    const std::unique_ptr<char, void (*)(void *)> real(realpath(path.c_str(), nullptr), std::free);
    return real ? real.get() : path;
}

// Who may not give a file away keeps it; the mode can be kept by whoever made the file.
bool take_after(int file, const struct stat &old) {
    const bool given = fchown(file, old.st_uid, old.st_gid) == 0;
    return (given || errno == EPERM) && fchmod(file, old.st_mode & PERMISSIONS) == 0;
}

}  // namespace

bool replace_file(const std::string &path, tikomuci::Bytes bytes, Progress &progress) {
    const std::string target = followed(path);
    struct stat old {};
    const bool there = stat(target.c_str(), &old) == 0;
    if (there && access(target.c_str(), W_OK) != 0) {
        return false;
    }
    Beside beside(target);
    Handle &file = beside.file();
    if (!file.is_open()) {
        return false;
    }
    if ((!there || take_after(file.number(), old)) && write_all(file.number(), bytes, &progress) &&
        fsync(file.number()) == 0 && file.close() && std::rename(beside.name(), target.c_str()) == 0) {
        return true;
    }
    const int why = errno;
    unlink(beside.name());
    errno = why;
    return false;
}

}  // namespace command
