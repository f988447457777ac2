# The library. rt proves it and compiles it for x86-64. Its LLVM module, from which it is compiled for another processor
# and with the checks of the sanitizers, is kept by a build of its own.
#
# Nothing is linked out of crates/*/out, which is rt's own, and one rule at a time works there.

ALONE := flock build/rt.lock

LIBRARY := build/libtikomuci.a
X86_64_LIBRARY := build/$(EMULATED)libtikomuci.a
MODULE := build/module/tikomuci
PROVED_FILES := find crates.txt crates/*/src crates/*/specs crates/*/proofs -type f

.PHONY: library archive-tests

library: $(LIBRARY)

# A library is as old as the text of the crates and the kit that it is made of.
build/sources: always | build/setup
	$(call written,{ $(RT) version; $(PROVED_FILES) -exec sha256sum {} + | sort; })

$(X86_64_LIBRARY): build/sources | build/setup
	@mkdir -p $(@D)
	tools/timed "static library" tools/quietly build/library.log $(ALONE) tools/library $@

$(MODULE).bc: $(X86_64_LIBRARY) tools/keep-module tools/compile-library tools/kit.sh
	tools/timed "LLVM module" tools/quietly build/module.log $(ALONE) tools/keep-module $(@D)

$(MODULE).ll: $(MODULE).bc tools/for-this-processor tools/declared include/tikomuci.h
	tools/for-this-processor $< $@

ifneq ($(MACHINE),x86_64)
$(LIBRARY): $(MODULE).ll tools/native-archive
	tools/native-archive $(<D) $@
endif

# The module is what rt's archive is compiled from, and each archive has the calls of the header and no others.
archive-tests: $(X86_64_LIBRARY) $(LIBRARY) $(MODULE).bc
	cmp $(X86_64_LIBRARY) build/module/libtikomuci.a
	tools/archive-tests $(sort $(X86_64_LIBRARY) $(LIBRARY))
