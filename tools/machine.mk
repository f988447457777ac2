# The processors that are built for. What is for the machine's own stands right below build/, and runs as it is. rt
# compiles the library for x86-64; on another processor the programs for x86-64 are cross-compiled, stand below
# build/x86-64, and are run by an emulator (tools/setup gets both).

MACHINE := $(shell uname -m)
X86_64_CARGO := cargo
ifneq ($(MACHINE),x86_64)
EMULATED := x86-64/
RUN := qemu-x86_64
X86_64_CARGO := tools/cargo-x86-64
endif
export CARGO_TARGET_DIR := $(CURDIR)/build/cargo
export CARGO_NET_OFFLINE := true

# The compilers of a target. Below some folders others are taken, whatever CC and CXX say.
cc = $(CC)
cxx = $(CXX)
build/x86-64/%: private cc := x86_64-linux-gnu-gcc
build/x86-64/%: private cxx := x86_64-linux-gnu-g++

# What the set-up found, one file to a line. It is done once, and again if one of them is gone.
FOUND := $(shell cat build/setup 2>/dev/null)
GONE := $(filter-out $(wildcard $(FOUND)),$(FOUND))
RT := $(firstword $(filter %/rt,$(FOUND)) rt)
export RT

.PHONY: setup always
build/setup: tools/setup hosts/rust/clippy.toml $(if $(GONE),always)
	@mkdir -p $(@D)
	tools/timed "set-up" tools/setup $@

setup:
	@mkdir -p build
	tools/setup build/setup

# written COMMAND: the target is what the command prints, and is left alone if it is that already.
define written
	@mkdir -p $(@D)
	@$(1) >$@.$$$$; if cmp -s $@.$$$$ $@; then rm $@.$$$$; else mv $@.$$$$ $@; fi
endef
