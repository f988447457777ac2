#include "run.hpp"

#include <algorithm>
#include <array>
#include <utility>

#include "caches.hpp"
#include "container.hpp"
#include "escape.hpp"
#include "input.hpp"
#include "object.hpp"
#include "session.hpp"
#include "text.hpp"

namespace command {

namespace {

using tikomuci::Bytes;

Status refused(Session &session, const std::string &name, tikomuci::Outcome outcome) {
    if (session.call.json) {
        object::put_refusal(session.out, name, outcome);
    } else {
        // Where standard output gets the bytes of a part, or a text alone, a verdict would be taken for them.
        const bool taken = session.call.out == "-" || session.call.verb == Verb::Type;
        text::put_verdict(taken ? session.errors : session.out, name, outcome);
    }
    return Status::Refused;
}

// What header and walk tell of a file. A blank line stands between two files.
void show_container(Session &session, const std::string &name, const Container &container, tikomuci::Outcome outcome) {
    session.out << (std::exchange(session.shown, true) ? "\n" : "");
    text::put_verdict(session.out, name, outcome);
    text::put_container(session.out, container, static_cast<bool>(outcome));
}

Status show_refused(Session &session, const std::string &name, const Container &container, tikomuci::Outcome outcome) {
    if (session.call.json) {
        object::put_shown(session.out, name, container, outcome);
    } else {
        show_container(session, name, container, outcome);
    }
    return Status::Refused;
}

Status show(Session &session, const std::string &name) {
    const File file = read_file(name, session.progress);
    session.progress.now("judging");
    const auto tables = tables_of(file);
    const Container container(file);
    session.progress.now_printing();
    if (!tables) {
        return show_refused(session, name, container, tables.outcome());
    }
    const tikomuci::Sheet &sheet = tables->sheet();
    if (session.call.json) {
        object::put_shown(session.out, name, container, sheet, constants_at(file, sheet));
    } else {
        show_container(session, name, container, {});
        text::put_rows(session.out, sheet, constants_at(file, sheet));
    }
    return Status::Accepted;
}

Status check(Session &session, const std::string &name) {
    const File file = read_file(name, session.progress);
    session.progress.now("judging");
    const auto size = tikomuci::measure(file);
    if (!size) {
        return refused(session, name, size.outcome());
    }
    if (session.call.json) {
        object::put_size(session.out, name, file, *size);
    } else {
        text::put_verdict(session.out, name, {});
    }
    return Status::Accepted;
}

tikomuci::Got<Bytes> part_of(Verb verb, Bytes file, std::uint64_t number) {
    switch (verb) {
        case Verb::String:
            return tikomuci::string(file, number);
        case Verb::Body:
            return tikomuci::body(file, number);
        case Verb::Section:
            return tikomuci::section(file, number);
        default:
            return tikomuci::constant(file, number);
    }
}

Status write_part(Session &session, const std::string &name) {
    const Call &call = session.call;
    const File file = read_file(name, session.progress);
    session.progress.now("judging");
    const auto part = part_of(call.verb, file, call.number);
    if (!part) {
        return refused(session, name, part.outcome());
    }
    if (call.out == "-") {
        session.progress.now_printing();
    } else {
        session.progress.now("writing", part->size());
    }
    write_out(call.out, *part, session.progress);
    if (call.json) {
        const auto offset = static_cast<std::uint64_t>(part->data() - file.data());
        object::put_view(session.out, name, word_of(call.verb), call.number, offset, *part);
    }
    return Status::Accepted;
}

Status print_type(Session &session, const std::string &name) {
    const std::uint64_t number = session.call.number;
    const File file = read_file(name, session.progress);
    session.progress.now("judging");
    const auto tables = tables_of(file);
    if (!tables) {
        return refused(session, name, tables.outcome());
    }
    std::array<std::uint8_t, tikomuci::TYPE_TEXT_BYTES> room{};
    const auto size = tables->sheet().type_text(number, room);
    if (!size) {
        return refused(session, name, size.outcome());
    }
    session.progress.now_printing();
    const std::string_view text = text_of_bytes(Bytes(room).first(*size));
    if (session.call.json) {
        object::put_type(session.out, name, number, text);
    } else {
        session.out << text << '\n';
    }
    return Status::Accepted;
}

Status done(Session &session, const std::string &name) {
    switch (session.call.verb) {
        case Verb::Show:
            return show(session, name);
        case Verb::Check:
            return check(session, name);
        case Verb::Type:
            return print_type(session, name);
        default:
            return write_part(session, name);
    }
}

}  // namespace

Status run(const Call &call, Sink &errors) {
    Progress progress(call.files.size());
    StandardOutput out(progress);
    Session session{call, progress, out, errors};
    if (call.verb == Verb::Help || call.verb == Verb::Version) {
        out << (call.verb == Verb::Help ? HELP : "tikomuci " TIKOMUCI_VERSION "\n");
        out.flush();
        return Status::Accepted;
    }
    if (call.verb == Verb::Cache) {
        return show_cache(session);
    }
    if (call.verb == Verb::CacheDemo) {
        return demonstrate_cache(session);
    }
    Status status = Status::Accepted;
    for (const std::string &name : call.files) {
        status = std::max(status, done_or_failed(session, name, [&] { return done(session, name); }));
    }
    return status;
}

}  // namespace command
