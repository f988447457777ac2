// File descriptors.
#ifndef TIKOMUCI_COMMAND_HANDLE_HPP
#define TIKOMUCI_COMMAND_HANDLE_HPP

#include <sys/types.h>

#include "progress.hpp"
#include "tikomuci.hpp"

namespace command {

/// A file descriptor that is closed with its owner.
class Handle {
  public:
    explicit Handle(int number) : number_(number) {}
    ~Handle() { close(); }
    Handle(const Handle &) = delete;
    Handle &operator=(const Handle &) = delete;

    [[nodiscard]] int number() const { return number_; }
    [[nodiscard]] bool is_open() const { return number_ >= 0; }

    /// Takes another one.
    void reset(int number);

    /// False if what was written may be lost; errno says why.
    bool close();

  private:
    int number_;
};

/// As many bytes as there are at once; 0 at the end, -1 if they cannot be read. A signal does not stop it.
ssize_t read_some(int file, tikomuci::Output bytes);

/// All bytes; `progress`, if there is one, is told of them. False if they cannot be written; errno says why.
bool write_all(int file, tikomuci::Bytes bytes, Progress *progress);

}  // namespace command

#endif
