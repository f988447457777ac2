#include "text.hpp"

#include "escape.hpp"

namespace command::text {

namespace {

using tikomuci::Bytes;

void put_version(Sink &out, tikomuci::Version version) {
    out << "Tile IR bytecode " << unsigned{version.major} << '.' << unsigned{version.minor};
    if (version.tag != 0) {
        out << '.' << version.tag;
    }
}

// The name that goes with an id, or that none does.
void put_id(Sink &out, std::uint64_t id) {
    const std::string_view name = section_name(id);
    out << (name.empty() ? "unknown" : name) << " (id " << id << ')';
}

void put_section(Sink &out, const Container &container, std::uint64_t number, const Section &section) {
    out << "  [" << number << "] ";
    put_id(out, section.id);
    out << ": " << Length{section.length} << " at " << section.offset;
    if (section.alignment) {
        out << ", aligned to " << *section.alignment;
    }
    const auto counting = container.counting(section.id);
    if (counting == number) {
        out << ", counts";
    } else if (counting) {
        out << ", does not count: [" << *counting << "] has its id";
    } else if (section_name(section.id).empty()) {
        out << ", passed over";
    }
    out << '\n';
}

// What stopped the walk, and where.
void put_broken(Sink &out, const Walk &walk, std::uint64_t left) {
    out << "  broken at " << walk.at() << ": " << tikomuci::refusal_text(walk.outcome().refusal);
    const Section &begun = walk.begun();
    if (begun.id != 0) {
        out << ", in section ";
        put_id(out, begun.id);
    }
    if (begun.offset != 0) {
        out << ", whose payload of " << Length{begun.length} << " begins here (left: " << Length{left} << ')';
    }
    out << "\n  no payload can be viewed\n";
}

// The size, and of a header that is refused what stands in its place.
void put_size(Sink &out, const Container &container) {
    if (const auto size = container.size()) {
        out << Length{*size};
    } else {
        out << "more than " << Length{TIKOMUCI_MAX_FILE_BYTES};
    }
    if (!container.version()) {
        out << ", beginning with " << Quoted{container.first_bytes()};
    }
    out << '\n';
}

void put_sections(Sink &out, const Container &container, const Walk &walk, bool accepted) {
    out << "\nsections (" << container.sections() << ")\n";
    container.each([&](std::uint64_t number, const Section &section) { put_section(out, container, number, section); });
    const std::uint64_t left = container.file().size() - walk.at();
    if (!walk.outcome()) {
        put_broken(out, walk, left);
        return;
    }
    out << "  end marker at " << walk.at() - 1 << ", " << Length{left} << " behind it\n";
    if (!accepted && container.sections() != 0) {
        out << "  a payload that counts can be viewed\n";
    }
}

// The end of a line that says of what it is.
void put_outcome(Sink &out, tikomuci::Outcome outcome) {
    if (outcome) {
        out << ": accepted\n";
        return;
    }
    out << ": refused: " << tikomuci::refusal_text(outcome.refusal);
    if (outcome.stage != tikomuci::Stage::Call) {
        out << ", " << tikomuci::stage_text(outcome.stage);
    }
    out << " (refusal " << number_of(outcome.refusal) << ", stage " << number_of(outcome.stage) << ")\n";
}

}  // namespace

void put_verdict(Sink &out, std::string_view name, tikomuci::Outcome outcome) {
    out << escaped(name);
    put_outcome(out, outcome);
}

void put_answer(Sink &out, std::string_view name, std::uint64_t instance, const tikomuci_answer &answer) {
    out << escaped(name) << ", instance " << instance;
    if (answer.refusal == 0) {
        out << ", slot " << answer.first;
    }
    put_outcome(out, tikomuci::outcome_of(answer));
}

void put_slots(Sink &out, const Cache &cache, std::size_t taken) {
    out << cache.slots() << " slots of " << Length{cache.slot_size()} << ", " << taken << " taken\n";
}

void put_faults(Sink &out, const std::vector<std::string> &faults) {
    for (const std::string &fault : faults) {
        out << "  " << fault << '\n';
    }
}

void put_held(Sink &out, std::string_view name, const Held &held, tikomuci::Outcome outcome) {
    out << "  [" << held.slot << "] instance " << held.instance << ", " << Length{held.file.size()} << " at "
        << held.offset << (name.empty() ? "" : ", ") << escaped(name);
    put_outcome(out, outcome);
}

void put_container(Sink &out, const Container &container, bool accepted) {
    if (container.version()) {
        put_version(out, *container.version());
        out << ", ";
    }
    put_size(out, container);
    if (container.walk()) {
        put_sections(out, container, *container.walk(), accepted);
    }
}

}  // namespace command::text
