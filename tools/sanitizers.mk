# The sanitizers and the fuzzer. They run on this processor, whichever it is: the C++ side is compiled by the system's
# clang, and the library from its LLVM module, so that the proved code has the sanitizer's instructions as well. No
# archive is linked.

.PHONY: fuzz corpus sanitizers threads

CORPUS := hosts/cpp/fuzz/corpus
FUZZ_SECONDS ?= 60
# What is no target is linked to each of them.
FUZZERS := $(patsubst hosts/cpp/fuzz/%.cpp,build/fuzzer/%,$(shell grep -l LLVMFuzzerTestOneInput hosts/cpp/fuzz/*.cpp))
CLAIMS := build/fuzzer/fuzz/claims.o

$(foreach folder,address thread fuzzer,$(eval build/$(folder)/%: private cc = $$(shell tools/clang-here clang)))
$(foreach folder,address thread fuzzer,$(eval build/$(folder)/%: private cxx = $$(shell tools/clang-here clang++)))
ADDRESS := -g1 -fsanitize=address,undefined -fno-sanitize-recover=all
build/address/%: private checks := $(ADDRESS)
build/thread/%: private checks := -g1 -O1 -fsanitize=thread
build/fuzzer/%: private checks := -O1 $(ADDRESS)

$(foreach folder,address thread fuzzer,$(eval $(call programs,build/$(folder),build/$(folder)/tikomuci.o)))

fuzz: $(FUZZERS)
	tools/timed "fuzzer" hosts/cpp/fuzz/run $(FUZZ_SECONDS) $(notdir $(FUZZERS))

corpus: build/fuzz/corpus
	rm -rf $(CORPUS)
	build/fuzz/corpus $(CORPUS)

# The corpus is what our writer makes, byte for byte. No target fails on it, and no test does. The command's tests start
# it so often that they do without the search for leaks, which takes seconds.
sanitizers: build/fuzz/corpus $(FUZZERS) build/address/all_tests build/address/session_threads build/address/tikomuci
	rm -rf build/fuzz/made
	build/fuzz/corpus build/fuzz/made
	diff -r build/fuzz/made $(CORPUS)
	tools/timed "corpus, sanitized" hosts/cpp/fuzz/run 0 $(notdir $(FUZZERS))
	tools/timed "C++ tests, sanitized" build/address/all_tests
	tools/timed "sixty threads on one cache, sanitized" build/address/session_threads $(SESSION_CALLS) $(SESSION_FILES)
	build/address/tikomuci check $(CORPUS)/file/* >/dev/null
	ASAN_OPTIONS=detect_leaks=0 tools/timed "command tests, sanitized" command/tests build/address/tikomuci

# A thread sanitizer wants its addresses where it expects them, which random ones may not be.
IN_PLACE = $(shell setarch -R true 2>/dev/null && echo setarch -R)
threads: build/thread/threads build/thread/session_threads
	tools/timed "sixty threads" $(IN_PLACE) build/thread/threads $(CORPUS)/file/*
	tools/timed "sixty threads on one cache, for races" $(IN_PLACE) build/thread/session_threads $(SESSION_CALLS) \
	    $(SESSION_FILES)

build/fuzz/corpus: build/fuzz/corpus.o $(LIBRARY)
	$(link)

$(FUZZERS): build/fuzzer/%: build/fuzzer/fuzz/%.o $(CLAIMS) build/fuzzer/tikomuci.o
	$(link) -fsanitize=fuzzer

# The command's branches guide the target that shows what it says.
build/fuzzer/show: $(filter-out build/fuzzer/command/main.o,$(COMMAND:%=build/fuzzer/%))
build/fuzzer/command/%: private checks := -O1 $(ADDRESS) -fsanitize=fuzzer-no-link

# By these names the kit's clang calls what the runtime of an older clang has under the plain ones only.
TSAN = $(shell nm "$$($(cxx) -print-file-name=libclang_rt.tsan-$(MACHINE).a)" 2>/dev/null | sed -n 's/.* T __tsan_//p')
TSAN_NAMES = $(foreach name,$(filter-out $(TSAN),memcpy memmove memset),-Wl,--defsym=__tsan_$(name)=$(name))
build/thread/%: private names = $(TSAN_NAMES)

# Only the branches of the library guide the fuzzer.
build/fuzzer/tikomuci.o: private more := -fsanitize=fuzzer-no-link
build/address/tikomuci.o build/fuzzer/tikomuci.o: $(MODULE).ll tools/instrumented
	tools/instrumented address $< $@ $(more)

build/thread/tikomuci.o: $(MODULE).ll tools/instrumented
	tools/instrumented thread $< $@
