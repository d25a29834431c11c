# make run: proves and builds the root program, and runs it on a worked case: it prints 6 and 4.
# make library: proves the library for C and Rust, and writes crates/opening_tree_c/out/libopening_tree_c.a.
# make test: the gate.
# make bench: the benchmark, beside Rust (needs rustc): docs/BENCHMARK.md.
# make profile: the halves of M_E in a profile of the library (needs valgrind): docs/BENCHMARK.md.
.PHONY: run library test bench profile

run:
	cd crates/root && rt run <stdin

library:
	tools/library.sh opening_tree_c

test:
	bash .ci/run

bench:
	bench/run.sh

profile: library
	python3 bench/profile_halves.py
