// What the header of a file and the walk over its sections tell, of a file that is refused too.
#ifndef TIKOMUCI_COMMAND_CONTAINER_HPP
#define TIKOMUCI_COMMAND_CONTAINER_HPP

#include <array>
#include <optional>
#include <string_view>

#include "tikomuci_tables.hpp"

namespace command {

/// A section as its own header has it.
struct Section {
    std::uint64_t id = 0;
    std::uint64_t length = 0;
    std::optional<std::uint64_t> alignment;
    std::uint64_t offset = 0;  // where its payload begins
};

/// The name of a section id; empty if the id is not known.
std::string_view section_name(std::uint64_t id);

/// The id that has this name, in small letters or not; nothing if none has.
std::optional<std::uint64_t> section_id(std::string_view name);

/// Goes from section to section behind a header that is accepted.
class Walk {
  public:
    explicit Walk(tikomuci::Bytes file);

    /// The next section; nothing at the end marker, and nothing where the walk is refused.
    std::optional<Section> next();

    /// Where it stands: behind the last section, behind the end marker, or at what was refused.
    [[nodiscard]] std::uint64_t at() const { return reader_.tell(); }

    [[nodiscard]] tikomuci::Outcome outcome() const { return outcome_; }

    /// Of the section in which it was refused, what was read: an id of 0, a length of 0 and an offset of 0 were not.
    [[nodiscard]] const Section &begun() const { return begun_; }

  private:
    bool good(tikomuci::Outcome outcome);
    bool take_length();
    bool take_alignment();
    bool take_payload();

    tikomuci::Reader reader_;
    tikomuci::Outcome outcome_;
    Section begun_;
};

/// Version and sections of a file. A section is counted from 0, and is not kept: a walk finds it again.
class Container {
  public:
    explicit Container(tikomuci::Bytes file);

    [[nodiscard]] tikomuci::Bytes file() const { return file_; }

    /// Nothing if it is over the limit: nobody knows how much was not read.
    [[nodiscard]] std::optional<std::uint64_t> size() const {
        return file_.size() <= TIKOMUCI_MAX_FILE_BYTES ? std::optional<std::uint64_t>(file_.size()) : std::nullopt;
    }

    /// Those of a header, whatever they are.
    [[nodiscard]] tikomuci::Bytes first_bytes() const;

    /// Nothing if the header is refused.
    [[nodiscard]] std::optional<tikomuci::Version> version() const { return version_; }

    /// The walk where it ended or was refused; nothing if the header is refused.
    [[nodiscard]] const std::optional<Walk> &walk() const { return walk_; }

    [[nodiscard]] std::uint64_t sections() const { return sections_; }

    /// The number of the section that counts for an id, and can be viewed. There is none for an id that is not known,
    /// and none at all if the walk is refused.
    [[nodiscard]] std::optional<std::uint64_t> counting(std::uint64_t id) const;

    /// Each section with its number.
    template <typename Put>
    void each(Put put) const {
        Walk walk(file_);
        for (std::uint64_t number = 0; number < sections_; ++number) {
            if (const auto section = walk.next()) {
                put(number, *section);
            }
        }
    }

  private:
    tikomuci::Bytes file_;
    std::optional<tikomuci::Version> version_;
    std::optional<Walk> walk_;
    std::uint64_t sections_ = 0;
    std::array<std::optional<std::uint64_t>, TIKOMUCI_SECTION_PRODUCER + 1> last_;
};

/// The tables of a file, or its refusal. Throws std::bad_alloc if there is no memory for them.
tikomuci::Got<tikomuci::Tables> tables_of(tikomuci::Bytes file);

/// Where the first constant begins of a file that has this sheet: they lie end to end, and the last ends with its
/// section.
std::uint64_t constants_at(tikomuci::Bytes file, const tikomuci::Sheet &sheet);

}  // namespace command

#endif
