// Verdicts, sections, tables and caches as text for people.
#ifndef TIKOMUCI_COMMAND_TEXT_HPP
#define TIKOMUCI_COMMAND_TEXT_HPP

#include <string>
#include <string_view>
#include <vector>

#include "cache.hpp"
#include "container.hpp"
#include "sink.hpp"
#include "tikomuci_tables.hpp"

namespace command::text {

/// One line: the name of the file, and that it is accepted, or why and where it is refused.
void put_verdict(Sink &out, std::string_view name, tikomuci::Outcome outcome);

/// Version, size and sections of a file that is accepted or refused.
void put_container(Sink &out, const Container &container, bool accepted);

/// The producer and all rows. What a row says of another is short, so that the text grows with the file and no faster.
void put_rows(Sink &out, const tikomuci::Sheet &sheet, std::uint64_t constants_at);

/// One line: the file that was put for an instance, and its slot, or why and where it is refused.
void put_answer(Sink &out, std::string_view name, std::uint64_t instance, const tikomuci_answer &answer);

/// One line: how many slots there are, how large they are, and how many of them are taken.
void put_slots(Sink &out, const Cache &cache, std::size_t taken);

/// A line for each reason.
void put_faults(Sink &out, const std::vector<std::string> &faults);

/// One line: who holds a slot, and whether the file in it is accepted. The name may be empty.
void put_held(Sink &out, std::string_view name, const Held &held, tikomuci::Outcome outcome);

/// The constants of the file in a slot.
void put_constants(Sink &out, const tikomuci::Sheet &sheet, std::uint64_t constants_at);

/// "1 byte", "2 bytes".
struct Length {
    std::uint64_t bytes;
};

inline Sink &operator<<(Sink &out, Length length) {
    return out << length.bytes << (length.bytes == 1 ? " byte" : " bytes");
}

}  // namespace command::text

#endif
