# make demo: prove, build the library, and see it used from C++.
# make test: what the gate runs: `rt ci`, and the tests of the hosts.
# make command: build/tikomuci, which shows and checks files.
# make library: build/libtikomuci.a, for this machine's processor.
# make install: the library, its headers and the command, below PREFIX; make uninstall removes them.
# make bench: our calls beside encoding.rs, decoder.rs, a plain reader and writer in Rust, and a map in C++.
# make comparison: our calls compared with the Rust on made files (SEED=n for other ones).
# make fuzz: tries the calls on arbitrary bytes for a minute (FUZZ_SECONDS=n).
# make sanitizers: the tests and the corpus under AddressSanitizer and UndefinedBehaviorSanitizer.
# make lint: the layout of every source file, clippy and shellcheck.
# make setup: installs the tools that are missing; the commands above do it by themselves.
# make corpus: writes the files that the fuzzer starts from.
# make answers: writes decoder.rs's answers, and the files of the genuine writer, that the reader tests have.
# make clean: removes all that was made.

SHELL := bash
.SHELLFLAGS := -euo pipefail -c
.DELETE_ON_ERROR:
.PHONY: help demo test command bench answers proofs verdict cpp-tests emulated-tests reader-tests comparison
.PHONY: emulated-comparison setup-tests lint clean
MAKEFLAGS += --no-builtin-rules --no-print-directory

help:
	@sed -n 's/^# \(make .*\)/\1/p' Makefile

include tools/machine.mk
include tools/library.mk

# Of all that is installed, as the C header has it; hosts/rust/Cargo.toml has it too.
VERSION := $(shell sed -n 's/^\#define TIKOMUCI_VERSION "\(.*\)"$$/\1/p' include/tikomuci.h)

# The Rust that was carried over: a folder `docs/src` beside the repository. A clone that stands alone has none.
RUST_SOURCE ?= ../shared/docs/src
HAS_RUST := $(wildcard $(RUST_SOURCE)/src/bytecode/encoding.rs)
export TIKOMUCI_RUST_SOURCE := $(abspath $(RUST_SOURCE))
IN_RUST := --manifest-path hosts/rust/Cargo.toml --locked --quiet
READER_TESTS := test $(IN_RUST) --package boundary --package plain --package sha256 --lib --tests
COMPARE := run $(IN_RUST) --package differential
ANSWERS := hosts/rust/boundary/tests/data/answers.txt

# In the gate a warning is an error; to a user, whose compiler may warn of more, it is none.
WARNINGS := -Wall -Wextra -pedantic -Wshadow -Wconversion $(if $(filter true,$(CI)),-Werror)
CFLAGS ?= -O2
CXXFLAGS ?= -O2
c99 = $(cc) -std=c99 $(or $(checks),$(CFLAGS)) $(WARNINGS) -Iinclude
c++20 = $(cxx) -std=c++20 $(or $(checks),$(CXXFLAGS)) $(WARNINGS) -Iinclude
link = $(cxx) $(or $(checks),$(LDFLAGS)) $(filter %.o %.a,$^) -o $@ $(names)

TESTS := $(patsubst hosts/cpp/%.cpp,%.o,$(wildcard hosts/cpp/tests/*_tests.cpp)) tests/header.o
COMMAND := $(patsubst %.cpp,%.o,$(wildcard command/*.cpp))
# How many calls each of sixty threads makes on one cache, and the files that they put.
SESSION_CALLS := 1700
SESSION_FILES := hosts/files/*.tileirbc hosts/files/hints/*.tileirbc

# The gate's steps come one after the other, whatever -j says; the parts of the last, which share nothing that they
# write, go two at a time.
ifneq ($(filter test,$(MAKECMDGOALS)),)
.NOTPARALLEL:
endif
TWO = $(if $(findstring -j,$(MAKEFLAGS)),,-j2) --output-sync=target --keep-going
PARTS := comparison $(if $(EMULATED),emulated-comparison emulated-tests) cpp-tests archive-tests install-tests sanitizers \
    threads fuzz reader-tests setup-tests

test: build/setup
	sed -i '/^== set-up: /!d' build/times
	tools/timed "lint" $(MAKE) lint
	tools/timed "proofs, must-fail edits and programs" $(MAKE) verdict
	tools/timed "hosts, two parts at a time" $(MAKE) $(TWO) $(PARTS) FUZZ_SECONDS=30
	@cat build/times

demo: proofs build/demo build/example build/session
	build/demo
	build/example
	build/session

proofs: build/setup
	$(ALONE) $(RT) all check

# What is tested is made of what the verdict proved: no library of before is used.
verdict: build/sources
	$(ALONE) tools/verdict build/ci.log
	tools/edit-costs build/ci.log.times
	rm -rf $(LIBRARY) $(X86_64_LIBRARY) build/module

command: build/tikomuci

cpp-tests: build/all_tests build/session build/session_threads build/tikomuci
	$(CXX) -std=c++11 $(WARNINGS) -fsyntax-only -x c++ include/tikomuci.h
	for standard in c++17 c++20; do hosts/cpp/tests/must-not-compile $(CXX) -std=$$standard; done
	hosts/cpp/tests/abi $(LIBRARY) $(CC) $(CXX)
	hosts/cpp/tests/readme $(LIBRARY) -- $(CXX) -std=c++17 -O2 $(WARNINGS)
	tools/timed "C++ tests" build/all_tests
	tools/timed "sixty threads on one cache" build/session_threads $(SESSION_CALLS) $(SESSION_FILES)
	build/session >/dev/null
	tools/timed "command tests" command/tests build/tikomuci

emulated-tests: build/x86-64/all_tests build/x86-64/tikomuci
	tools/timed "C++ tests, x86-64" $(RUN) build/x86-64/all_tests
	tools/timed "command tests, x86-64" command/tests $(RUN) build/x86-64/tikomuci
	tools/timed "reader tests, x86-64" $(X86_64_CARGO) $(READER_TESTS)

reader-tests: $(LIBRARY) | build/setup
	tools/timed "reader tests" cargo $(READER_TESTS)

comparison: $(LIBRARY) | build/setup
ifneq ($(HAS_RUST),)
	tools/timed "comparison with the Rust" cargo $(COMPARE) --release -- $(COMPARED)
	tools/timed "comparison with overflow checks" cargo $(COMPARE) --profile checked -- --small $(COMPARED)
else ifeq ($(CI),true)
	@echo "no Rust source at $(RUST_SOURCE): with CI=true the comparison may not be left out" >&2; exit 1
else
	@echo "no Rust source at $(RUST_SOURCE): the comparison with encoding.rs and decoder.rs was LEFT OUT"
endif

# Where rt's archive is run by the emulator, one of twenty cases is compared.
emulated-comparison: $(X86_64_LIBRARY) | build/setup
ifneq ($(HAS_RUST),)
	tools/timed "comparison, x86-64" $(X86_64_CARGO) $(COMPARE) --release -- --small $(COMPARED)
endif

bench: $(LIBRARY) | build/setup
ifneq ($(HAS_RUST),)
	CXX='$(CXX)' cargo run $(IN_RUST) --release --package bench -- $(FROM_WRITER)
else
	@echo "no Rust source at $(RUST_SOURCE): there is nothing to measure against" >&2; exit 1
endif

answers: $(X86_64_LIBRARY) | build/setup
ifneq ($(HAS_RUST),)
	$(X86_64_CARGO) $(COMPARE) --release -- --write-answers $(ANSWERS)
	$(X86_64_CARGO) $(COMPARE) --release -- --keep $(GENUINE)/fixed hosts/files
else
	@echo "no Rust source at $(RUST_SOURCE): there is nobody to ask" >&2; exit 1
endif

setup-tests:
	tools/timed "set-up tests" tools/setup-tests

lint: build/setup
	tools/lint

clean:
	rm -rf build crates/*/out

# programs FOLDER LIBRARY: the C++ side below a folder, each with its own compilers and flags, over a library.
define programs
$(1)/demo: $(1)/examples/demo.o $(2)
$(1)/example: $(1)/examples/example.o $(2)
$(1)/session: $(1)/examples/session.o $(2)
$(1)/all_tests: $(TESTS:%=$(1)/%) $(2)
$(1)/threads: $(1)/tests/threads.o $(2)
$(1)/session_threads: $(1)/tests/session_threads.o $(2)
$(1)/tikomuci: $(COMMAND:%=$(1)/%) $(2)
$(1)/demo $(1)/example $(1)/session $(1)/all_tests $(1)/threads $(1)/session_threads $(1)/tikomuci:
	$$(link)

$(1)/%.o: hosts/cpp/%.cpp $(1)/flags | build/setup
	@mkdir -p $$(@D)
	$$(c++20) $$(only) -MMD -MP -c $$< -o $$@

# What the headers are to C++17 is in one program with what they are to C++20.
$(1)/tests/cxx17_tests.o: private only := -std=c++17 -fno-exceptions

$(1)/%.o: hosts/cpp/%.c $(1)/flags | build/setup
	@mkdir -p $$(@D)
	$$(c99) -MMD -MP -c $$< -o $$@

$(1)/command/%.o: command/%.cpp $(1)/flags | build/setup
	@mkdir -p $$(@D)
	$$(c++20) -MMD -MP -c $$< -o $$@

$(1)/flags: always
	$$(call written,echo '$$(c99) $$(c++20)')
endef
$(eval $(call programs,build,$(LIBRARY)))
ifneq ($(EMULATED),)
$(eval $(call programs,build/x86-64,$(X86_64_LIBRARY)))
endif

include hosts/rust/genuine.mk
include tools/sanitizers.mk
include packaging/install.mk

# What each object was compiled from, as the compiler said.
-include $(filter-out build/cargo/%,$(wildcard build/*/*.d build/*/*/*.d))
