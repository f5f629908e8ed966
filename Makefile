# make run       the main job, on the stored input
# make test      the gate: all proofs, must-fail edits and programs, then the symbol program's cases
# make symbols   proves and links the symbol program, target/bin/symbols
# make cases     runs the symbol program on small inputs, refused and malformed ones among them, and the gate on stand-ins for rt
# make oracle    compares this code with the Rust front end of isdb-rs
# make bench     measures both in one run and prints how many times as fast this one is; with WRITE=1 it also writes docs/BENCH.md
# make archive   writes target/staticlib/libarchive.a, for C and Rust to link, and proves nothing where nothing has changed
# make examples  runs three examples in C, one in Rust and the symbol program on a recording, and compares what they print with what is stored
# make bindings  tests the C header and the Rust bindings
# make clean     removes all that was made
#
# Needed: the Rattle kit (its command rt) and a POSIX shell; for `make oracle` and `make bench` cargo, and the sources of isdb-rs at ISDB_RS; for
# `make examples` and `make bindings` a C compiler and cargo. A crate is reported as it is proved; all that rt says is in target/*.out. rt keeps its own work in
# crates/*/out/, so that a later run proves what has changed.
RT ?= rt
ISDB_RS ?= ../shared/docs/src

.PHONY: run test symbols cases oracle archive bench examples bindings clean kit
# What several targets stand on is made in the same folders, so one thing is made after another.
.NOTPARALLEL:

run: kit
	@echo "Proving and linking the symbol program, the replay programs and what they stand on (some minutes from nothing) .."
	@RT='$(RT)' sh tools/prove.sh target/run.out symbols replay_leaves replay_calls replay_floats
	@echo "The symbols of crates/symbols/stdin, a sheet, its banks and three pairs:"
	@target/bin/symbols <crates/symbols/stdin
	@echo "Replaying the answers of isdb-rs and of the oracle's reading of the rules, crates/replay_*/stdin:"
	@target/bin/replay_leaves <crates/replay_leaves/stdin
	@target/bin/replay_calls <crates/replay_calls/stdin
	@target/bin/replay_floats <crates/replay_floats/stdin

test: kit
	@RT='$(RT)' sh tests/gate.sh

symbols: kit
	@echo "Proving and linking the symbol program and what it stands on, as target/bin/symbols .."
	@RT='$(RT)' sh tools/prove.sh target/symbols.out symbols

cases: symbols
	@sh tests/symbols.sh target/bin/symbols
	@sh tests/gate_cases.sh

oracle: kit
	@RT='$(RT)' ISDB_RS='$(ISDB_RS)' sh oracle/compare.sh

archive: kit
	@RT='$(RT)' sh tools/archive.sh

bench: archive symbols
	@RT='$(RT)' ISDB_RS='$(ISDB_RS)' WRITE='$(WRITE)' sh bench/measure.sh

examples: archive symbols
	@CC='$(CC)' sh examples/compare.sh

bindings: archive
	@command -v $(firstword $(CC)) >/dev/null || { echo "$(CC), a C compiler, is not here: the header was not tested"; exit 1; }
	@command -v cargo >/dev/null || { echo "cargo is not here: the Rust bindings were not tested"; exit 1; }
	@echo "The archive's calls through include/huntelm.h, from C:"
	@$(CC) -std=c99 -O2 -Wall -Wextra -Wpedantic -Werror -Iinclude -o target/header tests/header.c target/staticlib/libarchive.a
	@target/header
	@if command -v $(firstword $(CXX)) >/dev/null; then \
		echo "The same from C++:"; \
		$(CXX) -x c++ -std=c++11 -O2 -Wall -Wextra -Wpedantic -Werror -Iinclude -o target/header tests/header.c -x none \
			target/staticlib/libarchive.a && target/header; \
	else echo "$(CXX), a C++ compiler, is not here: from C++ nothing was tested"; fi
	@echo "The tests of bindings/rust:"
	@cd bindings/rust && HUNTELM_ARCHIVE='$(CURDIR)/target/staticlib' cargo test --offline --quiet

clean:
	rm -rf target crates/*/out oracle/target oracle/archive/target bench/target bindings/rust/target

kit:
	@command -v $(RT) >/dev/null || \
		{ echo "rt, the command of the Rattle kit, is not on the PATH. Install the kit, or say where it is: make RT=/path/to/rt"; exit 1; }
