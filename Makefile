# make           prove every crate, and build into dist/ what there is
# make test      the gate: compare with the Rust where its source is there, then rt ci, whose last line is the verdict
# make compare   compare at length: N calls of each function at each depth, and N cut blocks of each kind, made from SEED
# make wrong     try the wrong programs of wrong/, which the prover must refuse, and write docs/wrong-programs.md
# make bench     measure speed against the Rust
# make exports   hold what C calls to the library, from which it is made (tools/exports)
# make clean     remove what the others made
#
# Nothing needs the network. Wanted: the kit (rt) and make; python3 for `make wrong`, tools/exports, tools/reading, tools/equations and tools/wrong-table, cargo for what runs the Rust.

RAV2D_SRC ?= ../shared/docs/src
N ?= 20000
SEED ?=

# The oracle and the bindings stand deeper, so they are given whole paths. $(1) is the archive.
SOURCE := $(abspath $(RAV2D_SRC))
ORACLE = cd oracle && RAV2D_SRC='$(SOURCE)' HEMAVOLUPS_ARCHIVE='$(abspath $(1))' cargo

# Prints why nothing can be compared with the Rust, in one sentence; nothing where it can.
define lacking
if [ ! -f oracle/Cargo.toml ]; then echo "Not compared with the Rust: there is no oracle/Cargo.toml."; \
elif [ ! -f '$(SOURCE)/crates/rav2d/src/mc.rs' ]; then echo "Not compared with the Rust: its source is not in $(RAV2D_SRC) (RAV2D_SRC names the folder)."; \
elif ! command -v cargo >/dev/null; then echo "Not compared with the Rust: there is no cargo."; fi
endef

# What C links. Making it proves the library and what stands below it, so it is made only after a change.
ARCHIVE := dist/libblocks.a

.PHONY: all check exports test compare wrong bench clean

all: check $(ARCHIVE)
	@mkdir -p dist/include
	@cp include/*.h dist/include/
	@{ echo "kit: $$(rt version)"; \
	   if commit=$$(git rev-parse HEAD 2>/dev/null); then \
	       [ -z "$$(git status --porcelain)" ] || commit="$$commit, with changes that no commit has"; echo "commit: $$commit"; fi; \
	   grep '^logic=' target/check.log; } >dist/VERSION
	@cd crates/worked && rt run 2>/dev/null
	@for f in $(ARCHIVE) dist/include/*.h dist/VERSION; do echo "made $$f"; done

check:
	@mkdir -p target
	@rt all check >target/check.log 2>&1 || { cat target/check.log; exit 1; }
	@grep '^logic=' target/check.log

# What C calls is held to the library's functions, from which it is made.
exports:
	@if command -v python3 >/dev/null; then tools/exports --check; else echo "What is made was not held to what it is made from: there is no python3."; fi

$(ARCHIVE): crates.txt tools/native-archive $(shell find crates -name out -prune -o \( -name '*.rt' -o -name '*.antt' \) -print)
	@tools/native-archive $@

# What is made is held to what it is made from first, before anything is compiled of it. The verdict is the last line, so rt ci comes last (tools/timed-ci runs
# it, prints the minutes it took, and fails where an edit shows nothing).
test: exports $(ARCHIVE)
	@if command -v python3 >/dev/null; then tools/reading && tools/equations && tools/wrong-table --check; fi
	@if command -v cc >/dev/null; then cc -std=c99 -Wall -Wextra -pedantic -Werror -fsyntax-only include/hemavolups.h; fi
	@if command -v cargo >/dev/null; then cd bindings/rust && HEMAVOLUPS_ARCHIVE='$(abspath $(ARCHIVE))' cargo test --offline -q; \
	    else echo "The Rust bindings were not tried: there is no cargo."; fi
	@why=$$($(lacking)); if [ -n "$$why" ]; then echo "$$why"; else ($(call ORACLE,$(ARCHIVE)) run --offline) \
	    && ($(call ORACLE,$(ARCHIVE)) test --offline --release -q) && ($(call ORACLE,$(ARCHIVE)) run --offline --release -- compare 300) \
	    && ($(call ORACLE,$(ARCHIVE)) run --offline --release -- guard 100); fi
	@why=$$($(lacking)); [ -n "$$why" ] || ($(call ORACLE,$(ARCHIVE)) run --offline --release -q -- differences) | diff docs/differences-run.md - \
	    || { echo "docs/differences-run.md isn't what the oracle prints for 'differences', which is marked > above."; exit 1; }
	@tools/timed-ci

compare: $(if $(shell $(lacking)),,$(ARCHIVE))
	@why=$$($(lacking)); if [ -n "$$why" ]; then echo "$$why" >&2; exit 1; fi
	@$(call ORACLE,$(ARCHIVE)) run --offline --release -- compare $(N) $(SEED)
	@$(call ORACLE,$(ARCHIVE)) run --offline --release -- guard $(N) $(SEED)

wrong:
	@tools/wrong

bench: $(if $(shell $(lacking)),,$(ARCHIVE))
	@why=$$($(lacking)); if [ -n "$$why" ]; then echo "$$why" >&2; exit 1; fi
	@cd bench && RAV2D_SRC='$(SOURCE)' HEMAVOLUPS_ARCHIVE='$(abspath dist/libblocks.a)' cargo run --offline --release

clean:
	rm -rf target dist oracle/target bench/target bindings/rust/target crates/*/out
