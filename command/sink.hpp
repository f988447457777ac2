// Where text goes.
#ifndef TIKOMUCI_COMMAND_SINK_HPP
#define TIKOMUCI_COMMAND_SINK_HPP

#include <array>
#include <charconv>
#include <concepts>
#include <cstddef>
#include <string_view>

namespace command {

/// Takes text piece by piece and hands it on in blocks: nothing of it has to be in memory as a whole, and putting needs
/// no memory, so that an object of JSON that is begun is also ended.
class Sink {
  public:
    Sink() = default;
    virtual ~Sink() = default;
    Sink(const Sink &) = delete;
    Sink &operator=(const Sink &) = delete;

    Sink &operator<<(char letter) { return *this << std::string_view(&letter, 1); }
    Sink &operator<<(const char *text) { return *this << std::string_view(text); }
    Sink &operator<<(std::string_view text);

    template <std::integral Number>
    requires(sizeof(Number) > 1) Sink &operator<<(Number number) {
        std::array<char, 20> digits{};
        const auto end = std::to_chars(digits.data(), digits.data() + digits.size(), number).ptr;
        return *this << std::string_view(digits.data(), static_cast<std::size_t>(end - digits.data()));
    }

    /// Hands on what is left. What was put and not flushed is lost with the sink.
    void flush();

  protected:
    virtual void take(std::string_view block) = 0;

  private:
    std::array<char, 1U << 16U> block_{};
    std::size_t used_ = 0;
};

}  // namespace command

#endif
