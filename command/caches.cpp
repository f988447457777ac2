#include "caches.hpp"

#include <algorithm>
#include <array>
#include <cerrno>
#include <cstring>

#include "escape.hpp"
#include "input.hpp"
#include "object.hpp"
#include "output.hpp"
#include "stores.hpp"
#include "text.hpp"

namespace command {

namespace {

using tikomuci::Bytes;
using Judged = tikomuci::Got<tikomuci::Tables>;

// A store is judged as a whole. Of one over the limit only a part was read.
File read_store(const std::string &path, Progress &progress) {
    File store = read_file(path, progress);
    if (store.size() > TIKOMUCI_MAX_FILE_BYTES) {
        throw Failure{Status::Unreadable, path, std::strerror(EFBIG)};
    }
    return store;
}

void put_verdict(Session &session, tikomuci::Outcome outcome) {
    session.out << escaped(session.call.files[0]) << ", ";
    text::put_verdict(session.out, session.call.buffer, outcome);
}

Status put_refused(Session &session, const Cache &cache, tikomuci::Outcome outcome) {
    const std::vector<std::string> faults = cache.faults();
    if (session.call.json) {
        object::put_cache(session.out, session.call.files[0], session.call.buffer, outcome, faults);
    } else {
        put_verdict(session, outcome);
        text::put_faults(session.out, faults);
    }
    return Status::Refused;
}

Status put_accepted(Session &session, const Cache &cache) {
    const std::size_t taken = cache.held().size();
    if (session.call.json) {
        object::put_cache(session.out, session.call.files[0], session.call.buffer, cache, taken);
    } else {
        put_verdict(session, {});
    }
    return Status::Accepted;
}

Status judge(Session &session, const Cache &cache) {
    session.progress.now("judging");
    const tikomuci::Outcome outcome = cache.outcome();
    return outcome ? put_accepted(session, cache) : put_refused(session, cache, outcome);
}

std::uint64_t first_constant(const Held &held, const tikomuci::Sheet &sheet) {
    return held.offset + constants_at(held.file, sheet);
}

void put_object(Session &session, const std::string &name, const Held &held, const Judged &judged) {
    if (judged) {
        const tikomuci::Sheet &sheet = judged->sheet();
        object::put_held(session.out, name, held, sheet, first_constant(held, sheet));
    } else {
        object::put_held(session.out, name, held, judged.outcome());
    }
}

// Where a cache was dumped, nobody knows what the files were called.
void put_text(Session &session, const std::string &name, const Held &held, const Judged &judged) {
    const bool dumped = session.call.verb == Verb::Cache;
    text::put_held(session.out, dumped ? std::string_view() : name, held, judged.outcome());
    if (judged) {
        const tikomuci::Sheet &sheet = judged->sheet();
        text::put_constants(session.out, sheet, first_constant(held, sheet));
    }
}

// The file in a slot is judged as it lies there.
Status show_held(Session &session, const std::string &name, const Held &held) {
    session.progress.now("judging");
    const Judged judged = tables_of(held.file);
    session.progress.now_printing();
    if (session.call.json) {
        put_object(session, name, held, judged);
    } else {
        put_text(session, name, held, judged);
    }
    return judged ? Status::Accepted : Status::Refused;
}

template <typename NameOf>
Status show_slots(Session &session, const Cache &cache, NameOf name_of) {
    const std::vector<Held> taken = cache.held();
    if (!session.call.json) {
        text::put_slots(session.out, cache, taken.size());
        session.out.flush();
    }
    Status status = Status::Accepted;
    for (const Held &held : taken) {
        const std::string &name = name_of(held.slot);
        status = std::max(status, done_or_failed(session, name, [&] { return show_held(session, name, held); }));
    }
    return status;
}

// The cache that files are put into, and the name of the file that each slot holds.
struct Demo {
    Stores stores;
    std::array<const std::string *, TIKOMUCI_SESSION_SLOTS> names{};
};

Status put(Session &session, Demo &demo, const std::string &name, std::uint64_t instance) {
    const File file = read_file(name, session.progress);
    session.progress.now("judging");
    const tikomuci_answer answer = demo.stores.put(instance, file);
    if (session.call.json) {
        object::put_answer(session.out, name, instance, answer);
    } else {
        text::put_answer(session.out, name, instance, answer);
    }
    if (answer.refusal != 0) {
        return Status::Refused;
    }
    demo.names[answer.first] = &name;
    return Status::Accepted;
}

Status write_store(Session &session, const std::string &path, Bytes store) {
    return done_or_failed(session, path, [&] {
        session.progress.now("writing", store.size());
        write_out(path, store, session.progress);
        return Status::Accepted;
    });
}

// The larger one first: if there is no room for it, both are as they were.
Status write_stores(Session &session, const Stores &stores, const std::string &out) {
    const Status status = write_store(session, out + ".buffer", stores.buffer());
    return status == Status::Accepted ? write_store(session, out + ".owners", stores.owners()) : status;
}

}  // namespace

Status show_cache(Session &session) {
    const std::string &name = session.call.files[0];
    const std::string &buffer_name = session.call.buffer;
    File owners;
    File buffer;
    const Status status = done_or_failed(session, name, [&] {
        owners = read_store(name, session.progress);
        buffer = read_store(buffer_name, session.progress);
        return judge(session, Cache(owners, buffer));
    });
    if (status != Status::Accepted) {
        return status;
    }
    return show_slots(session, Cache(owners, buffer),
                      [&](std::uint64_t) -> const std::string & { return buffer_name; });
}

Status demonstrate_cache(Session &session) {
    const Call &call = session.call;
    Demo demo;
    Status status = Status::Accepted;
    for (std::size_t i = 0; i < call.files.size(); ++i) {
        const std::string &name = call.files[i];
        const auto task = [&] { return put(session, demo, name, call.instances[i]); };
        status = std::max(status, done_or_failed(session, name, task));
    }
    session.out << (call.json ? "" : "\n");
    status = std::max(status, show_slots(session, demo.stores.cache(),
                                         [&](std::uint64_t slot) -> const std::string & { return *demo.names[slot]; }));
    return call.stores ? std::max(status, write_stores(session, demo.stores, *call.stores)) : status;
}

}  // namespace command
