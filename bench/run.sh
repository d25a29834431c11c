#!/usr/bin/env bash
# usage: run.sh [quick]
# Builds the library and the benchmark, and runs it: Markdown on standard output and in target/bench/figures.md, and two pictures
# beside it. With BENCH_KEEP=1 the archives in crates/*/out are taken as they are.
set -euo pipefail
cd "$(dirname "$0")/.."
if [ -z "${BENCH_KEEP:-}" ]; then
    tools/library.sh opening_tree_c measures >&2
fi
mkdir -p target/bench
BENCH_RUSTC=$(rustc --version) BENCH_RT=$(rt version) \
    rustc --edition 2021 -O -C target-cpu=x86-64 -o target/bench/bench bench/main.rs \
    -L native=crates/opening_tree_c/out -L native=crates/measures/out
target/bench/bench target/bench "$@" | tee target/bench/figures.md
