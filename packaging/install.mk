# Installing: what is put where, from the one list below, and the tests of it.

PREFIX ?= /usr/local
ROOT = $(DESTDIR)$(PREFIX)
PACKAGE := build/package

in.bin := build/tikomuci
in.include := $(wildcard include/*)
in.lib := $(LIBRARY)
in.lib/cmake/tikomuci := $(PACKAGE)/tikomuciConfig.cmake $(PACKAGE)/tikomuciConfigVersion.cmake
in.lib/pkgconfig := $(PACKAGE)/tikomuci.pc
in.share/doc/tikomuci := README.md docs/FORMAT.md CHANGELOG.md LICENSE NOTICE
in.share/man/man1 := $(PACKAGE)/tikomuci.1
FOLDERS := bin include lib lib/cmake/tikomuci lib/pkgconfig share/doc/tikomuci share/man/man1
OWN_FOLDERS := $(filter %/tikomuci,$(FOLDERS))
TO_INSTALL := $(foreach folder,$(FOLDERS),$(in.$(folder)))

# What CMake may call the processor that the library is compiled for.
names.x86_64 := x86_64|AMD64|amd64
names.aarch64 := aarch64|ARM64|arm64

.PHONY: install uninstall install-tests

define install_folder
	install -D -m $(if $(filter bin,$(1)),755,644) -t '$(ROOT)/$(1)' $(in.$(1))

endef

install: $(TO_INSTALL)
	$(foreach folder,$(FOLDERS),$(call install_folder,$(folder)))

uninstall:
	rm -f $(foreach folder,$(FOLDERS),$(foreach file,$(notdir $(in.$(folder))),'$(ROOT)/$(folder)/$(file)'))
	for own in $(foreach folder,$(OWN_FOLDERS),'$(ROOT)/$(folder)'); do \
	    [ ! -d "$$own" ] || rmdir --ignore-fail-on-non-empty "$$own"; \
	done

install-tests: build/example $(TO_INSTALL)
	MAKE='$(MAKE)' VERSION='$(VERSION)' CXX='$(CXX)' WARNINGS='$(WARNINGS)' MACHINE='$(MACHINE)' \
	    tools/timed "install tests" packaging/tests

# The Makefile has the version.
$(PACKAGE)/%: packaging/%.in packaging/install.mk include/tikomuci.h
	@mkdir -p $(@D)
	sed 's/@VERSION@/$(VERSION)/g; s/@PROCESSOR@/$(MACHINE)/g; s/@PROCESSORS@/$(names.$(MACHINE))/g' $< >$@
