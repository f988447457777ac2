#include "call.hpp"

#include <algorithm>
#include <array>
#include <charconv>

#include "container.hpp"

namespace command {

const std::string_view HELP =
    "tikomuci show [--json] FILE..                    shows the sections and the tables of files\n"
    "tikomuci check [--json] FILE..                   says of each file whether it is accepted\n"
    "tikomuci string [--json] FILE N -o OUT           writes the bytes of string N, counted from 0, to OUT\n"
    "tikomuci constant [--json] FILE N -o OUT         those of constant N\n"
    "tikomuci body [--json] FILE N -o OUT             those of the body of function N\n"
    "tikomuci section [--json] FILE SECTION -o OUT    those of the payload of a section, by its name or its id\n"
    "tikomuci type [--json] FILE N                    prints the text of type N, counted from 0\n"
    "tikomuci cache [--json] OWNERS BUFFER            shows who holds which slot of a cache, by its two stores\n"
    "tikomuci cache-demo [--json] [-o OUT] FILE..     puts files into a cache, and shows who holds which slot\n"
    "tikomuci --help                                  prints this\n"
    "tikomuci --version                               prints the version\n"
    "\n"
    "A FILE may be a pipe, and - is standard input. -o - is standard output; another OUT is replaced when all bytes\n"
    "are written. With --json each FILE gets one line with one object. Behind -- nothing is an option.\n"
    "\n"
    "cache-demo puts its first FILE for instance 1, the second for 2, and so on; INSTANCE=FILE names another. With -o\n"
    "its two stores are written to OUT.owners and OUT.buffer. With --json both calls print a line for each slot that\n"
    "is taken, too.\n"
    "\n"
    "Exit status, of several files the highest:\n"
    "  0  all was accepted\n"
    "  1  something was refused, or what was asked for is not there\n"
    "  2  the command was not understood\n"
    "  3  a file could not be read\n"
    "  4  OUT or standard output could not be written\n"
    "  5  there was not enough memory\n";

namespace {

// In the order of the verbs.
constexpr std::array<std::string_view, 9> WORDS = {"show",    "check", "string", "constant",  "body",
                                                   "section", "type",  "cache",  "cache-demo"};

// The words and options, before anybody asks what they mean.
struct Line {
    std::vector<std::string> words;
    std::optional<std::string> out;
    bool json = false;
    bool help = false;
    bool version = false;
};

// Takes the option that stands first, and what belongs to it: how many words these are.
std::size_t take_option(Line &line, const std::string &word, const std::string *next) {
    if (word == "--json") {
        line.json = true;
    } else if (word == "--help" || word == "-h") {
        line.help = true;
    } else if (word == "--version") {
        line.version = true;
    } else if (word != "-o") {
        throw Misuse{"there is no option " + word};
    } else if (line.out || next == nullptr) {
        throw Misuse{"-o takes one OUT"};
    } else {
        line.out = *next;
        return 2;
    }
    return 1;
}

// A word that begins with `-` is an option, but for `-` itself and for what stands behind `--`.
Line taken(const std::vector<std::string> &arguments) {
    Line line;
    const auto end = std::find(arguments.begin(), arguments.end(), "--");
    for (auto at = arguments.begin(); at != end;) {
        if (at->size() < 2 || at->front() != '-') {
            line.words.push_back(*at++);
        } else {
            at += static_cast<std::ptrdiff_t>(take_option(line, *at, at + 1 != end ? &at[1] : nullptr));
        }
    }
    if (end != arguments.end()) {
        line.words.insert(line.words.end(), end + 1, arguments.end());
    }
    return line;
}

Verb verb_of(const Line &line) {
    if (line.words.empty()) {
        throw Misuse{"there is no command"};
    }
    const auto known = std::find(WORDS.begin(), WORDS.end(), line.words[0]);
    if (known == WORDS.end()) {
        throw Misuse{"there is no command " + line.words[0]};
    }
    return static_cast<Verb>(known - WORDS.begin());
}

std::optional<std::uint64_t> number_of(const std::string &text) {
    std::uint64_t value = 0;
    const char *const end = text.data() + text.size();
    const auto [stop, error] = std::from_chars(text.data(), end, value);
    return error == std::errc{} && stop == end ? std::optional(value) : std::nullopt;
}

void refuse_out(const Line &line) {
    if (line.out) {
        throw Misuse{line.words[0] + " takes no -o"};
    }
}

// Any number of files.
void take_files(Call &call, const Line &line) {
    if (line.words.size() < 2) {
        throw Misuse{line.words[0] + " takes a FILE or more"};
    }
    call.files.assign(line.words.begin() + 1, line.words.end());
}

// `cache`: the two stores.
void take_stores(Call &call, const Line &line) {
    if (line.words.size() != 3) {
        throw Misuse{line.words[0] + " takes OWNERS and BUFFER"};
    }
    if (line.words[1] == "-" && line.words[2] == "-") {
        throw Misuse{"standard input cannot be both OWNERS and BUFFER"};
    }
    call.files = {line.words[1]};
    call.buffer = line.words[2];
}

// `cache-demo`: whose each file is. A number before a `=` says it; else it is the file's own, counted from 1.
void take_instances(Call &call, const Line &line) {
    if (line.out == "-") {
        throw Misuse{"standard output cannot take two stores"};
    }
    for (std::string &file : call.files) {
        const std::size_t end = file.find('=');
        const auto named = end != std::string::npos ? number_of(file.substr(0, end)) : std::nullopt;
        call.instances.push_back(named ? *named : call.instances.size() + 1);
        file.erase(0, named ? end + 1 : 0);
    }
    call.stores = line.out;
}

// `type`: a file, and the number of a row.
void take_row(Call &call, const Line &line) {
    if (line.words.size() != 3) {
        throw Misuse{line.words[0] + " takes FILE and N"};
    }
    const auto number = number_of(line.words[2]);
    if (!number) {
        throw Misuse{line.words[2] + " is no number of a row"};
    }
    call.files = {line.words[1]};
    call.number = *number;
}

// The others: a file, which part of it, and OUT.
void take_part(Call &call, const Line &line) {
    const bool section = call.verb == Verb::Section;
    if (line.words.size() != 3 || !line.out) {
        throw Misuse{line.words[0] + (section ? " takes FILE, SECTION and -o OUT" : " takes FILE, N and -o OUT")};
    }
    const std::string &part = line.words[2];
    const auto named = section ? section_id(part) : std::nullopt;
    const auto number = named ? named : number_of(part);
    if (!number) {
        throw Misuse{part + (section ? " is no section" : " is no number of a row")};
    }
    if (line.json && *line.out == "-") {
        throw Misuse{"standard output cannot take both --json and -o -"};
    }
    call.files = {line.words[1]};
    call.number = *number;
    call.out = *line.out;
}

}  // namespace

std::string_view word_of(Verb verb) { return WORDS[static_cast<std::size_t>(verb)]; }

Call understood(const std::vector<std::string> &arguments) {
    const Line line = taken(arguments);
    Call call;
    call.json = line.json;
    if (line.help) {
        return call;
    }
    if (line.version) {
        call.verb = Verb::Version;
        return call;
    }
    call.verb = verb_of(line);
    switch (call.verb) {
        case Verb::Show:
        case Verb::Check:
            refuse_out(line);
            take_files(call, line);
            break;
        case Verb::Type:
            refuse_out(line);
            take_row(call, line);
            break;
        case Verb::Cache:
            refuse_out(line);
            take_stores(call, line);
            break;
        case Verb::CacheDemo:
            take_files(call, line);
            take_instances(call, line);
            break;
        default:
            take_part(call, line);
    }
    return call;
}

}  // namespace command
