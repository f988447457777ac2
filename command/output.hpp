// Standard output and standard error, and the file that the bytes of a part are written to.
#ifndef TIKOMUCI_COMMAND_OUTPUT_HPP
#define TIKOMUCI_COMMAND_OUTPUT_HPP

#include <string>

#include "progress.hpp"
#include "sink.hpp"
#include "tikomuci.hpp"

namespace command {

/// Thrown where standard output does not take what is written: nothing more can be said there.
struct OutputLost {
    std::string why;
};

class StandardOutput : public Sink {
  public:
    explicit StandardOutput(Progress &progress) : progress_(progress) {}

  protected:
    /// Throws OutputLost.
    void take(std::string_view block) override;

  private:
    Progress &progress_;
};

/// Where errors go. If they cannot be written there is nobody to tell; the status still says it.
class StandardError : public Sink {
  protected:
    void take(std::string_view block) override;
};

/// Writes all bytes to OUT: to standard output if that is `-`, into a device or a pipe as it is, and else as a file
/// that takes the place of OUT when it is whole. Throws a Failure, and OUT is as it was; or OutputLost.
void write_out(const std::string &path, tikomuci::Bytes bytes, Progress &progress);

}  // namespace command

#endif
