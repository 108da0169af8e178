# `make` alone prints the commands.

SHELL := bash
.SHELLFLAGS := -euo pipefail -c
.DEFAULT_GOAL := help
.PHONY: help run try incident replay watch shift lib install play fuzz library wrapper bench test twins compare compare-oracle wireshark kit

help:
	@echo "make run             plays scripts/run.txt through the proved node and prints what each call answers"
	@echo "make try             the same in half a minute, without the proofs"
	@echo "make incident        plays the order that put the original at ReadyToOperate with an old ready word"
	@echo "make watch           plays the example of docs/WATCH.md and holds that page to what replay prints"
	@echo "make test            every check; the last line is 'N passed, 0 failed'"
	@echo "make twins           proves the twin of each wrong program that changes the code's shape (some minutes)"
	@echo "make shift           proves shiftreport, tries it on stored and generated inputs and on a gigabyte"
	@echo "make lib             proves the C library and builds build/libpowerlink_cn.a"
	@echo "make install         puts it, its header, its pkg-config file and man pages into PREFIX, or DESTDIR/PREFIX"
	@echo "make play            builds build/play, which plays call scripts through the C library"
	@echo "make fuzz            gives the C library any bytes for ten minutes ('make fuzz SECONDS=60'; needs clang)"
	@echo "make wrapper         tests the Rust wrapper and its documentation's examples (needs cargo)"
	@echo "make compare         ten million generated calls beside the original Rust (needs cargo and its source;"
	@echo "                     'make compare SEEDS=\"1 2\" CALLS=100000' makes fewer)"
	@echo "make compare-oracle  call scripts on the original Rust (the same needs)"
	@echo "make wireshark       entries, codes, commands and flags beside Wireshark (needs tshark)"
	@echo "make bench           what each call of the library costs beside the original Rust (the same needs)"
	@echo "target/bin/replay SCRIPT    plays an own script, after make run (docs/CALLS.md)"

kit:
	@command -v rt >/dev/null || { echo "The Rattle kit is missing: its command rt has to be on the path." >&2; exit 1; }

replay: kit
	@mkdir -p target/bin
	@echo "Proving the node and the program that drives it (some minutes the first time)."
	@scripts/build.sh replay

run: replay
	@scripts/run.sh scripts/run.txt

try: kit
	@scripts/try.sh scripts/run.txt

incident: replay
	@scripts/incident.sh

watch: replay
	@tests/watch.py

shift: kit
	@scripts/build.sh shiftreport
	@tests/shiftreport.py
	@tests/shiftreport.py --speed

# The C library, and what is built over it. PREFIX is where it is used from, DESTDIR stands before it while it is installed.
PREFIX ?= /usr/local
DESTDIR ?=
SECONDS ?= 600
ARCHIVE := build/libpowerlink_cn.a
STRICT := -std=c11 -pedantic -Wall -Wextra -Wconversion -Werror -Iinclude
PLAY := c/play.c c/script.c c/words.c c/station.c c/telling.c
FUZZ := c/fuzz.c c/fuzz_input.c c/fuzz_expected.c c/guarded.c
HEADERS := include/powerlink_cn.h $(wildcard c/*.h)
CHECKED := -g -O2 -fno-sanitize-recover=all -fsanitize

lib: kit
	@echo "Proving the library (some minutes the first time)."
	@scripts/library.sh

install:
	@test -f $(ARCHIVE) || $(MAKE) --no-print-directory lib
	@scripts/install.sh "$(PREFIX)" "$(DESTDIR)"

play: lib
	@$(MAKE) -s build/play

fuzz: lib
	@command -v clang >/dev/null || { echo "make fuzz needs clang, which has libFuzzer." >&2; exit 1; }
	@$(MAKE) -s build/fuzz
	@mkdir -p build/corpus
	@build/fuzz -max_total_time=$(SECONDS) -max_len=2048 -verbosity=0 -print_final_stats=1 -artifact_prefix=build/ build/corpus

build/play: $(PLAY) $(HEADERS) $(ARCHIVE)
	@$(CC) $(STRICT) -D_POSIX_C_SOURCE=200809L -O2 $(PLAY) $(ARCHIVE) -o $@

build/play-checked: $(PLAY) $(HEADERS) $(ARCHIVE)
	@$(CC) $(STRICT) -D_POSIX_C_SOURCE=200809L $(CHECKED)=address,undefined $(PLAY) $(ARCHIVE) -o $@

# One call of the weigh head is not made: play has to tell.
build/play-differs: $(PLAY) c/differs.c $(HEADERS) $(ARCHIVE)
	@$(CC) $(STRICT) -D_POSIX_C_SOURCE=200809L -Wl,--wrap=plcn_weigh_arm $(PLAY) c/differs.c $(ARCHIVE) -o $@

build/free: c/free.c $(HEADERS) $(ARCHIVE)
	@$(CC) $(STRICT) -O2 -ffreestanding -fno-builtin -fno-stack-protector -fno-pie -no-pie -nostdlib -static c/free.c $(ARCHIVE) -o $@

build/fuzz: $(FUZZ) $(HEADERS) $(ARCHIVE)
	@clang $(STRICT) -D_DEFAULT_SOURCE $(CHECKED)=fuzzer,address,undefined $(FUZZ) $(ARCHIVE) -o $@

library: lib
	@$(MAKE) -s build/play build/play-checked build/play-differs build/free
	@tests/library.py

wrapper:
	@scripts/wrapper.sh

test: kit
	@echo "Checking public contracts and the documents' references."
	@sh tests/documents.sh
	@echo "Checking that the page of NMT transitions is the output that its program is held to."
	@cmp docs/TRANSITIONS.md crates/chart/stdout
	@echo "Checking the script that replay is run on."
	@compare/joined.sh --check
	@echo "Proving every crate, trying the must-fail edits, running the programs; where this machine has proved the same files before, that takes half a"
	@echo "minute. Behind it, silent where all is as expected, in a minute or two: shift totals, the page on the watch, names and traces, the C library and its wrapper."
	@scripts/gate.sh
	@scripts/build.sh --built replay shiftreport
	@tests/shiftreport.py >target/shift.log || { cat target/shift.log; exit 1; }
	@tests/watch.py --quiet
	@tests/replay.py --quiet
	@scripts/library.sh
	@$(MAKE) -s build/play build/play-checked build/play-differs build/free
	@tests/library.py --quiet
	@scripts/wrapper.sh --quiet
	@tail -n 1 target/ci.log

twins: kit
	@tests/twins.py

compare: kit
	@compare/lent.sh
	@compare/run.sh
	@compare/replay.sh

compare-oracle:
	@compare/oracle.sh

wireshark:
	@compare/wireshark.py --needs
	@$(MAKE) --no-print-directory replay
	@compare/wireshark.py

bench: lib
	@bench/build.sh
	@target/bench/cargo/release/bench $(BENCH)
