// Tests of what the text of a type takes of the stack: the types that go deepest, on threads whose stack has just the
// bytes that the header says, behind a page that nothing may touch.

#include <pthread.h>
#include <sys/mman.h>
#include <sys/wait.h>
#include <unistd.h>

#include <csignal>
#include <cstdlib>
#include <string>
#include <vector>

#include "check.hpp"
#include "tikomuci_builder.hpp"

namespace {

// An address sanitizer makes frames larger than those of the library.
#if defined(__SANITIZE_ADDRESS__)
constexpr bool SANITIZED = true;
#elif defined(__has_feature)
constexpr bool SANITIZED = __has_feature(address_sanitizer);
#else
constexpr bool SANITIZED = false;
#endif

using tikomuci::Builder;

// One call, and what it answered.
struct Called {
    const Wire &sheet;
    std::uint64_t row;
    Wire out;
    tikomuci_answer answer{};

    static void *run(void *called) {
        auto &call = *static_cast<Called *>(called);
        call.answer =
            tikomuci_type_text(call.sheet.data(), call.sheet.size(), call.row, call.out.data(), call.out.size());
        return nullptr;
    }
};

// Makes a call on a thread that has this stack.
bool run_on(void *stack, std::size_t size, Called &called) {
    pthread_attr_t attributes;
    pthread_t thread{};
    if (pthread_attr_init(&attributes) != 0) {
        return false;
    }
    const bool done = pthread_attr_setstack(&attributes, stack, size) == 0 &&
                      pthread_create(&thread, &attributes, Called::run, &called) == 0 &&
                      pthread_join(thread, nullptr) == 0;
    pthread_attr_destroy(&attributes);
    return done;
}

// On a stack of so many bytes, in whole pages, with a page below it that cannot be touched.
bool run_on(std::size_t stack, Called &called) {
    const auto page = static_cast<std::size_t>(sysconf(_SC_PAGESIZE));
    const std::size_t size = (stack + page - 1) / page * page;
    void *const memory = mmap(nullptr, page + size, PROT_READ | PROT_WRITE, MAP_PRIVATE | MAP_ANONYMOUS, -1, 0);
    if (memory == MAP_FAILED) {
        return false;
    }
    const bool done =
        mprotect(memory, page, PROT_NONE) == 0 && run_on(static_cast<std::uint8_t *>(memory) + page, size, called);
    munmap(memory, page + size);
    return done;
}

// Whether a child that makes the call on such a thread is ended by the page below the stack.
bool ends_on(std::size_t stack, Called &called) {
    const pid_t child = fork();
    if (child == 0) {
        std::signal(SIGSEGV, SIG_DFL);
        run_on(stack, called);
        _exit(EXIT_SUCCESS);
    }
    int status = 0;
    return child > 0 && waitpid(child, &status, 0) == child && WIFSIGNALED(status) && WTERMSIG(status) == SIGSEGV;
}

// A way to nest types: what is put before the type inside, and behind it.
struct Nesting {
    std::string before;
    std::string behind;
    std::uint64_t (*add)(Builder &tables, std::uint64_t inner);
};

const std::string INNERMOST = "() -> ()";

const std::vector<Nesting> NESTINGS = {
    {"(", ") -> ()", [](Builder &tables, std::uint64_t inner) { return tables.func({inner}, {}); }},
    {"() -> (", ")", [](Builder &tables, std::uint64_t inner) { return tables.func({}, {inner}); }},
    {"ptr<", ">", [](Builder &tables, std::uint64_t inner) { return tables.pointer(inner); }},
    {"tile<", ">", [](Builder &tables, std::uint64_t inner) { return tables.tile(inner, {}); }},
    {"tensor_view<x", ", strides=[]>",
     [](Builder &tables, std::uint64_t inner) { return tables.tensor_view(inner, {}, {}); }},
    {"partition_view<tile=(), tv=", ">",
     [](Builder &tables, std::uint64_t inner) { return tables.partition_view({}, inner, {}); }},
    {"gather_scatter_view<tile=(), tv=", ", sparse_dim=0>",
     [](Builder &tables, std::uint64_t inner) { return tables.gather_scatter_view({}, inner, 0); }},
    {"strided_view<tile=(), traversal_strides=[], tv=", ", dim_map=[]>",
     [](Builder &tables, std::uint64_t inner) { return tables.strided_view({}, {}, inner, {}); }},
};

// Types that each name the one before: the last nests deeper than there is room for what stands before.
Wire chain(const Nesting &nesting, std::size_t room) {
    Builder tables({13, 4, 0});
    std::uint64_t row = tables.func({}, {});
    while (row <= room / nesting.before.size()) {
        row = nesting.add(tables, row);
    }
    return tables.sheet();
}

std::uint64_t last_row(const Wire &sheet) { return tikomuci::Reader(sheet, 8 * 8).le_u64().value_or(0) - 1; }

// The call goes as deep as it can and answers 11; and the deepest type whose text fits is put.
void deepest(const Nesting &nesting, std::size_t room) {
    const std::size_t stack = TIKOMUCI_TYPE_TEXT_STACK(room);
    const std::string what = nesting.before + " in " + std::to_string(room) + " bytes";
    const Wire sheet = chain(nesting, room);
    Called deep{sheet, last_row(sheet), Wire(room, CANARY)};
    expect(run_on(stack, deep), what + ": a thread");
    expect(tikomuci::outcome_of(deep.answer) == FULL && deep.out == Wire(room, CANARY), what + ": too deep");

    const std::size_t level = nesting.before.size() + nesting.behind.size();
    const std::uint64_t levels = (room - INNERMOST.size()) / level;
    Called fits{sheet, levels, Wire(room, CANARY)};
    expect(run_on(stack, fits), what + ": another thread");
    expect(fits.answer.refusal == 0 && fits.answer.first == INNERMOST.size() + levels * level, what + ": it fits");
}

// The page below the stack is there to be found: a frame has more than twice eight bytes.
void a_stack_that_is_too_small() {
    constexpr std::size_t ROOM = 16384;
    const Wire sheet = chain(NESTINGS[0], ROOM);
    Called deep{sheet, last_row(sheet), Wire(ROOM)};
    expect(ends_on(TIKOMUCI_TYPE_TEXT_STACK_BASE + 16 * ROOM, deep), "a stack that is too small");
}

}  // namespace

void type_stack_tests() {
    if (SANITIZED) {
        return;
    }
    for (const Nesting &nesting : NESTINGS) {
        for (const std::size_t room : {std::size_t{4096}, std::size_t{65536}}) {
            deepest(nesting, room);
        }
    }
    a_stack_that_is_too_small();
}
