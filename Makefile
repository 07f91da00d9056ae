# Two commands: `make run` drains a shipped ring, `make test` proves and tests everything (the gate).
# Both look first for what they need (tools/needs.sh): the Rattle toolchain (rt); for the tests Debian's packages, by
# the line that `tools/needs.sh line` prints and README.md shows.
.DELETE_ON_ERROR:
.PHONY: help run test lib clean

RING ?= rings/switches.img
LIB = target/staticlib/libollskuvan.a

help:
	@echo "make run       prove and build ringdump, and drain a shipped ring (RING=$(RING))"
	@echo "make test      prove every crate, try every must-fail edit, run all tests (the gate)"
	@echo "make lib       build $(LIB) for C; with TARGET=aarch64-linux-gnu and others, target/boards/TARGET"
	@echo "make boards    the library and the programs for every target: target/boards"
	@echo "make tool      build the program: target/tool/ollskuvan"
	@echo "make examples  build the examples: target/examples"
	@echo "make report    the report of the shipped kiln rings, and its picture"
	@echo "make bench     speed beside careful C"
	@echo "make install   program, header, both libraries, pkg-config file, manual pages (PREFIX=$(PREFIX))"
	@echo "make boards-test   other targets under an emulator"
	@echo "make soak      random and damaged rings beside the independent reader (MINUTES=5)"
	@echo "make clean     remove target/ and crates/*/out, all that was proved and built"

# the journal of a ring that a live kernel wrote: an entry a line, then why the drain stopped and at which tail
run:
	@test -f "$(RING)" || { echo "no such ring image: $(RING)" >&2; exit 1; }
	@tools/needs.sh run
	@test -x target/bin/ringdump || echo "$(PROVES_FIRST)" >&2
	@tools/library.sh ringdump
	@tools/x86.sh ready
	@target/bin/ringdump < "$(RING)"

PROVES_FIRST = proving ringdump and what it stands on, before it is built: some four minutes of one core, once

test:
	@tools/needs.sh test
	@bash tools/gate.sh

# TARGET names another processor: tools/library.sh targets
lib:
	@tools/needs.sh run
	@$(if $(TARGET),tools/library.sh $(TARGET),tools/library.sh && echo "$(LIB)")

.PHONY: boards boards-test
boards:
	@tools/needs.sh run
	@tools/library.sh all
boards-test:
	@tests/boards/run.sh

clean:
	rm -rf target crates/*/out

# what needs the library builds it first
$(LIB):
	@$(MAKE) -s lib

examples bench bench-short bench-instructions install outside-tests snippets-test: $(LIB)

MINUTES ?= 5
.PHONY: soak
soak: $(LIB)
	tests/run.sh soak $(MINUTES)

include tests/Makefile.inc examples/Makefile.inc bench/Makefile.inc packaging/Makefile.inc
include tool/Makefile.inc
