# Files of the genuine writer: cutile-ir's own, compiled as it stands by rustc alone for this machine's processor. It
# makes files by a seed, each beside the text that cutile-ir's decode_bytecode prints of it. Those of the fixed seed are
# always the same, and some of them are kept in hosts/files.

.PHONY: genuine

# A folder `realwriter` beside the Rust that was carried over. A clone that stands alone has neither.
WRITER_SOURCE ?= ../shared/realwriter
HAS_WRITER := $(and $(HAS_RUST),$(wildcard $(WRITER_SOURCE)/build.sh))
GENUINE := build/genuine
WRITER := $(GENUINE)/writer/realwriter
WRITER_FILES := $(wildcard $(addprefix $(WRITER_SOURCE)/,*.sh *.rs */*.rs */*/*.rs) $(RUST_SOURCE)/src/*/*.rs)
FIXED_SEED := 1

# What the bench and the comparison are told.
FROM_WRITER := $(if $(HAS_WRITER),--genuine $(GENUINE))
COMPARED := $(FROM_WRITER) $(SEED)

ifneq ($(HAS_RUST),)
bench comparison emulated-comparison answers: genuine
endif

ifneq ($(HAS_WRITER),)
genuine: $(WRITER)
	rm -rf $(GENUINE)/fixed $(GENUINE)/seeded
	$(WRITER) $(GENUINE)/fixed 1200 $(FIXED_SEED) >$(GENUINE)/fixed.log
	$(WRITER) $(GENUINE)/seeded 3000 $(or $(SEED),2) >$(GENUINE)/seeded.log
else ifeq ($(CI),true)
genuine:
	@echo "no genuine writer at $(WRITER_SOURCE): with CI=true its files may not be left out" >&2; exit 1
else
genuine:
	@echo "no genuine writer at $(WRITER_SOURCE): what is done with its files was LEFT OUT"
endif

$(WRITER): $(WRITER_FILES)
	sh $(WRITER_SOURCE)/build.sh $(@D) $(RUST_SOURCE)/src
