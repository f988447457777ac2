// What a host must not be able to write. Each line with `// error:` behind it has to be refused by the compiler, with
// the regular expression that follows in what it says; without those lines this file compiles. The script of the same
// name tries both.

#include <array>
#include <cstddef>
#include <cstdint>
#include <utility>
#include <vector>

#include "tikomuci_builder.hpp"
#include "tikomuci_cache.hpp"

using Container = std::vector<std::uint8_t>;

Container load();
const Container constant_load();
std::vector<std::byte> load_bytes();
tikomuci::Tables tables();
tikomuci::TypeText text();
tikomuci::SessionStores session();
tikomuci::ProfileCache cache();
tikomuci::HeldProfile held();

// A view of a container that is gone behind the call.
void temporaries(const Container &file) {
    static_cast<void>(tikomuci::constant(file, 0));
    static_cast<void>(tikomuci::constant(tikomuci::Bytes(file), 0));
    static_cast<void>(tikomuci::constant(load(), 0));                         // error: keep the container in a variable
    static_cast<void>(tikomuci::constant(constant_load(), 0));                // error: keep the container in a variable
    static_cast<void>(tikomuci::constant(load_bytes(), 0));                   // error: keep the container in a variable
    static_cast<void>(tikomuci::constant(std::array<std::uint8_t, 4>{}, 0));  // error: keep the container
    static_cast<void>(tikomuci::string(load(), 0));                           // error: keep the container in a variable
    static_cast<void>(tikomuci::body(load(), 0));                             // error: keep the container in a variable
    static_cast<void>(tikomuci::section(load(), 1));                          // error: keep the container in a variable
    static_cast<void>(tikomuci::section(load(), tikomuci::Section::Type));    // error: keep the container in a variable
}

void stores(const Container &file, Container &sheet, Container &pool) {
    static_cast<void>(tikomuci::read(load(), sheet, pool));        // the file may be gone: nothing of it is handed out
    static_cast<void>(tikomuci::read(file, load(), pool));         // error: keep the container in a variable
    static_cast<void>(tikomuci::read(file, sheet, file));          // error: (could not|cannot|no .*) conver
    static_cast<void>(tikomuci::read_sheet(file, sheet, load()));  // error: keep the container in a variable
    static_cast<void>(tikomuci::Sheet::open(load(), pool));        // error: keep the container in a variable
    static_cast<void>(tikomuci::Sheet::open(sheet, load()));       // error: keep the container in a variable
    tikomuci::Reader reader(load());                               // error: keep the container in a variable
    tikomuci::Writer writer(load());                               // error: keep the container in a variable
}

// The sheet of tables without the tables, and other words under it.
void sheets(const tikomuci::Tables &kept, tikomuci::Sheet &sheet, std::vector<std::uint32_t> &index) {
    static_cast<void>(sheet.index(index));
    static_cast<void>(sheet.index(std::vector<std::uint32_t>(4)));  // error: (could not|cannot|no .*) conver
    static_cast<void>(tables().sheet());                            // error: keep the tables in a variable
    static_cast<void>(kept.sheet().index(index));                   // error: (discards|not marked const)
    const tikomuci::Sheet copy = kept.sheet();                      // error: (deleted function|deleted constructor)
    kept.sheet().bytes()[0] = 1;                                    // error: (read-only|cannot assign)
    kept.sheet().pool()[0] = 1;                                     // error: (read-only|cannot assign)
}

// A text in a container that is gone, and the view of a text that is gone.
void texts(const Container &sheet, Container &out, const tikomuci::TypeText &kept, const tikomuci::Sheet &rows) {
    static_cast<void>(kept.view());
    static_cast<void>(tikomuci::type_text(load(), 0, out));    // the sheet may be gone: nothing of it is handed out
    static_cast<void>(tikomuci::type_text(sheet, 0, load()));  // error: (no matching|keep the container)
    static_cast<void>(tikomuci::type_text(out, 0, sheet));     // error: (no matching|conver)
    static_cast<void>(text().view());                          // error: keep the text in a variable
    static_cast<void>(*tikomuci::type_text(sheet, 0));         // error: give the answer a name
    static_cast<void>(rows.type_text(0)->view());              // error: give the answer a name
    const tikomuci::TypeText copy = kept;  // error: (deleted function|deleted constructor|implicitly)
    tikomuci::type_text(sheet, 0, out);    // error: ignoring return
    rows.type_text(0);                     // error: ignoring return
}

// A value that nobody looked at, and an answer that nobody did.
void answers(const Container &file, tikomuci::Writer &writer, const tikomuci::Got<tikomuci::Size> &size) {
    static_cast<void>(size->words);
    static_cast<void>(tikomuci::measure(file)->words);                  // error: give the answer a name
    static_cast<void>(*tikomuci::measure(file));                        // error: give the answer a name
    static_cast<void>(*tikomuci::read(file));                           // error: give the answer a name
    static_cast<void>(tikomuci::read(file)->sheet());                   // error: give the answer a name
    static_cast<void>(size.value_);                                     // error: private
    const bool accepted = size.outcome();                               // error: (cannot|no .*) conver
    tikomuci::measure(file);                                            // error: ignoring return
    writer.varint(1);                                                   // error: ignoring return
    tikomuci_measure(file.data(), file.size());                         // error: ignoring return
    static_cast<void>(tikomuci::section(file, tikomuci::Stage::Type));  // error: (no matching|conver)
}

void rows(tikomuci::Builder &built, const std::vector<std::int64_t> &wide) {
    built.tensor_view(0, wide, {1});
    built.partition_view(wide, 0, {1});  // error: a list has numbers that may not fit
}

// A slot of a buffer that is gone, or without its lock.
void slots(const Container &file, Container &buffer, Container &owners) {
    static_cast<void>(tikomuci::cache_put(buffer, owners, 1, load()));  // the file may be gone: it is copied
    static_cast<void>(tikomuci::cache_fetch(buffer, load(), 1, 0));     // and so may the table of a fetch
    static_cast<void>(tikomuci::cache_put(load(), owners, 1, file));    // error: keep the container in a variable
    static_cast<void>(tikomuci::cache_put(buffer, load(), 1, file));    // error: keep the container in a variable
    static_cast<void>(tikomuci::cache_fetch(load(), owners, 1, 0));     // error: keep the container in a variable
    static_cast<void>(tikomuci::cache_drop(load(), owners, 1));         // error: keep the container in a variable
    static_cast<void>(tikomuci::cache_drop(buffer, file, 1));           // error: (could not|cannot|no .*) conver
    static_cast<void>(tikomuci::session_put(load(), owners, 1, file));  // error: keep the container in a variable
    static_cast<void>(tikomuci::session_fetch(load(), owners, 1, 0));   // error: keep the container in a variable
    static_cast<void>(tikomuci::session_drop(buffer, load(), 1));       // error: keep the container in a variable
    static_cast<void>(*tikomuci::session_fetch(buffer, owners, 1, 0));  // error: give the answer a name
    tikomuci::cache_drop(buffer, owners, 1);                            // error: ignoring return
}

void sessions(tikomuci::SessionStores &stores, const Container &file) {
    static_cast<void>(session().put(1, file));
    static_cast<void>(session().fetch(1, 0));              // error: keep the stores in a variable
    static_cast<void>(session().buffer());                 // error: keep the stores in a variable
    static_cast<void>(session().owners());                 // error: keep the stores in a variable
    const tikomuci::SessionStores copy = stores;           // error: (deleted function|deleted constructor)
    stores.buffer()[0] = 1;                                // error: (read-only|cannot assign)
    stores.owners()[0] = 1;                                // error: (read-only|cannot assign)
    static_cast<void>(*tikomuci::SessionStores::make(4));  // error: give the answer a name
    stores.drop(1);                                        // error: ignoring return
}

void locks(tikomuci::ProfileCache &shared, tikomuci::HeldProfile &profile, Container &into) {
    static_cast<void>(cache().fetch(1, 0, into));
    static_cast<void>(shared.fetch(1, 0, load()));   // error: keep the container in a variable
    static_cast<void>(cache().fetch(1, 0));          // error: keep the cache in a variable
    static_cast<void>(cache().try_fetch(1, 0));      // error: keep the cache in a variable
    static_cast<void>(shared.fetch(1, 0)->bytes());  // error: give the answer a name
    static_cast<void>(held().bytes());               // error: keep the profile in a variable
    profile.bytes()[0] = 1;                          // error: (read-only|cannot assign)
    const tikomuci::HeldProfile other = profile;     // error: (deleted function|deleted constructor)
    const tikomuci::ProfileCache copy = shared;      // error: (deleted function|deleted constructor|implicitly deleted)
    shared.put(1, into);                             // error: ignoring return
    shared.fetch(1, 0);                              // error: ignoring return
    shared.try_fetch(1, 0, into);                    // error: ignoring return
}
