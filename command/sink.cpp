#include "sink.hpp"

#include <algorithm>

namespace command {

Sink &Sink::operator<<(std::string_view text) {
    while (!text.empty()) {
        const std::string_view part = text.substr(0, block_.size() - used_);
        std::copy(part.begin(), part.end(), block_.begin() + static_cast<std::ptrdiff_t>(used_));
        used_ += part.size();
        text.remove_prefix(part.size());
        if (used_ == block_.size()) {
            flush();
        }
    }
    return *this;
}

void Sink::flush() {
    const std::string_view block(block_.data(), used_);
    used_ = 0;
    take(block);
}

}  // namespace command
