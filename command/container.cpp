#include "container.hpp"

#include <algorithm>
#include <new>

namespace command {

namespace {

using tikomuci::Bytes;

constexpr std::uint64_t VERSION_AT = 8;
constexpr std::uint64_t SECTIONS_AT = 12;
constexpr std::uint8_t END_OF_BYTECODE = 0;
constexpr std::uint8_t ID_BITS = 0x7F;
constexpr std::uint8_t ALIGNED_BIT = 0x80;

constexpr std::array<std::string_view, TIKOMUCI_SECTION_PRODUCER + 1> NAMES = {
    "", "String", "Func", "Debug", "Constant", "Type", "Global", "Producer"};

char small(char letter) { return letter >= 'A' && letter <= 'Z' ? static_cast<char>(letter - 'A' + 'a') : letter; }

bool same_letters(std::string_view a, std::string_view b) {
    return std::equal(a.begin(), a.end(), b.begin(), b.end(), [](char x, char y) { return small(x) == small(y); });
}

// The library judges the header; this reads again what it has.
std::optional<tikomuci::Version> version_of(Bytes file) {
    const auto viewed = tikomuci::section(file, tikomuci::Section::String);
    if (!viewed && viewed.outcome().stage < tikomuci::Stage::Sections) {
        return std::nullopt;
    }
    tikomuci::Reader reader(file, VERSION_AT);
    const auto major = reader.byte();
    const auto minor = reader.byte();
    const auto tag = reader.le_u16();
    return major && minor && tag ? std::optional(tikomuci::Version{*major, *minor, *tag}) : std::nullopt;
}

}  // namespace

std::string_view section_name(std::uint64_t id) { return id < NAMES.size() ? NAMES[id] : std::string_view{}; }

std::optional<std::uint64_t> section_id(std::string_view name) {
    for (std::uint64_t id = TIKOMUCI_SECTION_STRING; id < NAMES.size(); ++id) {
        if (same_letters(name, NAMES[id])) {
            return id;
        }
    }
    return std::nullopt;
}

Walk::Walk(Bytes file) : reader_(file, SECTIONS_AT) {}

std::optional<Section> Walk::next() {
    begun_ = {};
    const auto head = reader_.byte();
    if (!good(head.outcome())) {
        return std::nullopt;
    }
    begun_.id = *head & ID_BITS;
    if (begun_.id == END_OF_BYTECODE) {
        return std::nullopt;
    }
    const bool aligned = (*head & ALIGNED_BIT) != 0;
    return take_length() && (!aligned || take_alignment()) && take_payload() ? std::optional(begun_) : std::nullopt;
}

bool Walk::good(tikomuci::Outcome outcome) {
    if (!outcome) {
        outcome_ = {outcome.refusal, tikomuci::Stage::Sections};
    }
    return static_cast<bool>(outcome);
}

bool Walk::take_length() {
    const auto length = reader_.varint();
    begun_.length = length.value_or(0);
    return good(length.outcome());
}

bool Walk::take_alignment() {
    const auto alignment = reader_.varint();
    if (!good(alignment.outcome())) {
        return false;
    }
    begun_.alignment = *alignment;
    return good(reader_.skip_padding(*alignment).outcome());
}

bool Walk::take_payload() {
    begun_.offset = reader_.tell();
    return good(reader_.bytes(begun_.length).outcome());
}

Container::Container(Bytes file) : file_(file), version_(version_of(file)) {
    if (!version_) {
        return;
    }
    Walk walk(file);
    while (const auto section = walk.next()) {
        if (section->id < last_.size()) {
            last_[section->id] = sections_;
        }
        ++sections_;
    }
    if (!walk.outcome()) {
        last_.fill(std::nullopt);
    }
    walk_ = walk;
}

Bytes Container::first_bytes() const { return file_.first(std::min<std::size_t>(file_.size(), SECTIONS_AT)); }

std::optional<std::uint64_t> Container::counting(std::uint64_t id) const {
    return id < last_.size() ? last_[id] : std::nullopt;
}

tikomuci::Got<tikomuci::Tables> tables_of(Bytes file) {
    auto tables = tikomuci::read(file);
    if (tables.outcome().refusal == tikomuci::Refusal::Memory) {
        throw std::bad_alloc();
    }
    return tables;
}

std::uint64_t constants_at(Bytes file, const tikomuci::Sheet &sheet) {
    const auto section = tikomuci::section(file, tikomuci::Section::Constant);
    if (!section) {
        return 0;
    }
    auto at = static_cast<std::uint64_t>(section->data() - file.data()) + section->size();
    for (const Bytes constant : sheet.constants()) {
        at -= constant.size();
    }
    return at;
}

}  // namespace command
