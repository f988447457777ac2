// What is said of a file, as one object of JSON in one line. Rows are as the sheet has them, and no name is resolved;
// those of types have their texts too.
#ifndef TIKOMUCI_COMMAND_OBJECT_HPP
#define TIKOMUCI_COMMAND_OBJECT_HPP

#include <string>
#include <string_view>
#include <vector>

#include "cache.hpp"
#include "container.hpp"
#include "sink.hpp"
#include "status.hpp"
#include "tikomuci_tables.hpp"

namespace command::object {

/// A file that could not be read, whose bytes could not be written, or for which there was no memory.
void put_failure(Sink &out, std::string_view name, const Failure &failure);

/// A refusal, where nothing else is told.
void put_refusal(Sink &out, std::string_view name, tikomuci::Outcome refused);

/// A file that is accepted, where its tables are not shown.
void put_size(Sink &out, std::string_view name, tikomuci::Bytes file, tikomuci::Size size);

/// What header and walk tell of a file that is refused.
void put_shown(Sink &out, std::string_view name, const Container &container, tikomuci::Outcome refused);

/// The same of a file that is accepted, and its tables.
void put_shown(Sink &out, std::string_view name, const Container &container, const tikomuci::Sheet &sheet,
               std::uint64_t constants_at);

/// A part of a file: what it is (`key` and `number`), where, and its checksum.
void put_view(Sink &out, std::string_view name, std::string_view key, std::uint64_t number, std::uint64_t offset,
              tikomuci::Bytes bytes);

/// The text of a type, and its number.
void put_type(Sink &out, std::string_view name, std::uint64_t number, std::string_view text);

/// A file that was put for an instance: its slot, or its refusal.
void put_answer(Sink &out, std::string_view name, std::uint64_t instance, const tikomuci_answer &answer);

/// The stores of a cache that are accepted.
void put_cache(Sink &out, std::string_view owners, std::string_view buffer, const Cache &cache, std::size_t taken);

/// The stores of a cache that are refused, and why, in words.
void put_cache(Sink &out, std::string_view owners, std::string_view buffer, tikomuci::Outcome refused,
               const std::vector<std::string> &faults);

/// A slot that holds a file that is refused.
void put_held(Sink &out, std::string_view name, const Held &held, tikomuci::Outcome refused);

/// A slot that holds a file that is accepted, and its constants.
void put_held(Sink &out, std::string_view name, const Held &held, const tikomuci::Sheet &sheet,
              std::uint64_t constants_at);

}  // namespace command::object

#endif
