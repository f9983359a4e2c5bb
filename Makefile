# The folder of the Rust originals, hv-core and hv-s2.
export HV_SRC ?= ../shared/docs/src

# What the random inputs of make diff are drawn from.
SEED ?= 1

JUDGE = cargo run --quiet --release --offline --manifest-path oracle/Cargo.toml -p judge --
TIMED = cargo run --quiet --profile timed --offline --manifest-path oracle/Cargo.toml -p judge --

# For make help: behind the first ## stands how long a target takes, behind the second what it does.
.PHONY: run test help library scenes board board-arm header pages compare diff arm arm-short sabotage bench record fmt
# Steps of these.
.PHONY: programs library-here libraries judge judge-library compared self-tested

# Proves programs and what they need, and builds them. What is proved is told on standard error, here and below: a target's own lines stand
# alone.
PROVE = tools/progress.sh target/programs.log tools/program.sh

run: ## 4 min ## proves the program and what it needs, builds it and runs it on scene S
	@echo "proving $$(awk -v crate=s2dump -f tools/needed.awk crates.txt) crates, s2dump and what it needs:" \
	    "3 to 4 minutes from nothing, a second where nothing has changed" >&2
	@$(PROVE) s2dump >&2
	@target/bin/s2dump <scenes/S.txt

# rt ci first: what it proved serves the rest. Its verdict comes last.
test: ## 25 min ## the gate: rt ci, of every proof, edit, test and program, then compare, arm-short, board, scenes, header and pages; its last line is rt's
	@echo "rt ci: $$(awk -f tools/needed.awk crates.txt) crates to prove, $$(ls crates/*/must-fail/*.edit | wc -l) edits to be refused"
	@tools/ci.sh
	@$(MAKE) --no-print-directory --jobs=3 --output-sync compare arm-short board scenes header pages
	@tail -n 2 target/ci.log

help: ## 0 s ## lists the targets
	@awk -F ' *## *' '/^[a-z-]+:.* ## / { sub(/:.*/, "", $$1); printf "make %-10s %-8s %s\n", $$1, $$2, $$3 }' Makefile
	@echo "About, on two cores, with the older kit (-: not measured); run and test from nothing, the others where the crates are proved, which takes up to 6 min first."

fmt: ## 2 s ## lays out every file
	@for crate in crates/*/; do (cd $$crate && rt fmt) || exit 1; done
	@cargo fmt --all --manifest-path oracle/Cargo.toml
	@cargo fmt --all --manifest-path board/dervhalt-s2/Cargo.toml

# The C header declares what the static library exports, and has its numbers.
NUMBERED = crates/layout/src/lib.rt crates/update/src/lib.rt crates/p2m/src/lib.rt crates/annex/src/lib.rt
header: ## 1 s ## holds the C header to the exported calls and numbers
	@mkdir -p target
	@$(CC) -std=c99 -Wall -Wextra -Werror -fsyntax-only -x c include/dervhalt_s2.h
	@awk -f tools/prototypes.awk crates/layout/src/lib.rt crates/layout_numbers/src/lib.rt crates/edge/src/lib.rt crates/s2/src/lib.rt >target/exported
	@$(CC) -E -P include/dervhalt_s2.h | tr '\n' ' ' | \
	    sed -e :field -e 's/\(struct s2_[a-z]* {[^;}]*\);/\1,/' -e tfield | tr ';' '\n' | \
	    sed 's/  */ /g; s/^ //; s/( /(/g' | grep ' s2_' >target/declared
	@diff target/exported target/declared
	@awk -f tools/numbers.awk $(NUMBERED) >target/numbers
	@{ echo '#include "dervhalt_s2.h"'; sed 's/"\(.*\)".*/"\1" \1/' target/numbers; } | \
	    $(CC) -E -P -Iinclude -x c - | grep '^"' | diff target/numbers -
	@echo "header: $$(grep -c '(' target/declared) calls as they are exported, $$(wc -l <target/numbers) numbers"

# What the pages say of files and counts, and of the stack.
pages: library ## 30 s ## holds the pages to the files
	@tools/pages.sh

# What the programs print of each scene: the nonzero words, and the annex page.
scenes: programs ## 1 s ## holds what s2dump and s2annex print of each scene to scenes/*.out and *.annex
	@for scene in scenes/*.txt; do \
	    { target/bin/s2dump <$$scene | cmp - $${scene%.txt}.out && target/bin/s2annex <$$scene | cmp - $${scene%.txt}.annex; } || \
	        { echo "$$scene prints something else"; exit 1; }; \
	done
	@echo "scenes: $$(ls scenes/*.out | wc -l) printed by s2dump and $$(ls scenes/*.annex | wc -l) by s2annex as they must be"

# Board code in Rust and in C over the static library: the crate's tests, and what scene S prints in both.
board: library-here ## 40 s ## board code in Rust and C: the crate's tests, and scene S
	@$(CC) -std=c99 -Wall -Wextra -Werror -Iinclude board/example.c -Ltarget/staticlib -ls2 -o target/example
	@target/example >target/example.out || { cat target/example.out; exit 1; }
	@diff board/example.out target/example.out
	@cd board/dervhalt-s2 && export S2_DIR=target/staticlib RUSTFLAGS=-Dwarnings RUSTDOCFLAGS=-Dwarnings && \
	    { cargo test --offline >../../target/board.log 2>&1 || { cat ../../target/board.log; exit 1; }; } && \
	    cargo run --quiet --offline --example scene_s >../../target/example.out
	@diff board/example.out target/example.out
	@echo "board: $$(grep -c '^test .* ok$$' target/board.log) tests of the crate, and scene S in Rust and C"

# The crate over the board's archive, on an Arm processor that QEMU emulates.
board-arm: library ## - ## the crate for board code on an emulated Arm processor; installs what it needs
	@board/arm.sh

# The port beside the Rust, and the comparison itself beside seeded faults. Without the originals, rt ci still replays their recorded answers.
compare: compared self-tested ## 2 min ## the port beside the Rust

compared: judge
	@if [ -d "$(HV_SRC)/hv-s2" ]; then \
	    $(JUDGE) compare && $(JUDGE) check-record crates && $(JUDGE) check-scenes scenes; \
	else \
	    echo "no Rust originals in $(HV_SRC): the comparison was not run"; \
	fi

self-tested: judge
	@[ ! -d "$(HV_SRC)/hv-s2" ] || $(JUDGE) self-test

# Built before both.
judge: libraries
	@[ ! -d "$(HV_SRC)/hv-s2" ] || cargo build --quiet --release --offline --manifest-path oracle/Cargo.toml -p judge

# The same at scale, with other random inputs: ten million of each call or more.
diff: libraries ## 10 min ## the same at scale; SEED=S asks other inputs
	@$(JUDGE) diff --seed $(SEED)

# Times of the port and of the Rust, each without overflow checks.
bench: libraries ## 1.3 min ## times beside the Rust
	@$(TIMED) bench

# The Rust's answers, which the replays must print, and what the programs must print of each scene.
record: libraries ## 1 min ## records the Rust's answers anew, and what the programs print of each scene
	@$(JUDGE) record crates
	@$(JUDGE) scenes scenes

# An Arm machine as judge: the library, and the manual's translation as it is defined, compiled for aarch64, on two machines that QEMU emulates.
arm: judge-library ## 2.5 min ## two emulated Arm machines as judge; installs QEMU
	@arm/build.sh
	@INSTALL=1 arm/run.sh 2000 1

arm-short: judge-library ## 1.5 min ## the same with fewer scenes, where QEMU is there; INSTALL=1 installs it
	@arm/build.sh
	@arm/run.sh 60 1

# Every fault of the compiled libraries is noticed, or listed.
sabotage: libraries ## 47 min ## faults in the compiled libraries, each noticed or listed with its reason
	@sabotage/run.sh

# What board code links: for the board, and for the machine that builds.
library: library-here ## 30 s ## what board code links, for aarch64 and for this machine
	@tools/aarch64.sh s2 >target/stack 2>target/library.log || { cat target/library.log target/stack; exit 1; }
	@echo "library: target/aarch64/libs2.a for the board, target/staticlib/libs2.a for this machine, include/dervhalt_s2.h; $$(cat target/stack)"

library-here:
	@tools/progress.sh target/library-here.log tools/module.sh s2 >&2

programs:
	@$(PROVE) s2dump s2annex >&2

# What the comparison links beside it, and the programs that it runs.
libraries: library programs
	@tools/progress.sh target/probe_windows.log tools/module.sh probe_windows >&2
	@tools/progress.sh target/probe.log tools/module.sh probe_c probe >&2

# What the Arm judge alone links.
judge-library: libraries
	@tools/progress.sh target/judge_translation.log tools/module.sh judge_translation >&2
	@tools/aarch64.sh judge_translation >target/judge-library.log 2>&1 || { cat target/judge-library.log; exit 1; }
