#!/usr/bin/env bash
# Tests the Rust bindings, after `make library`: their own tests, the differential ones among them, the examples of their
# pages, that these pages are made without a warning, and the first example, which must print what the reference does. The last line counts
# the tests; a file of tests in which none ran is a failure.
set -eu
cd "$(dirname "$0")/../bindings/rust"
export CARGO_TARGET_DIR=../../target/rust CARGO_TERM_COLOR=never
log=$(mktemp)
trap 'rm -f "$log"' EXIT
cargo test --release --offline -- --nocapture >"$log" 2>&1 || { cat "$log"; exit 1; }
cat "$log"
RUSTDOCFLAGS='-D warnings' cargo doc --release --offline --quiet
wanted=$(python3 ../../examples/first.py)
said=$(cargo run --release --offline --quiet --example first)
[ "$said" = "$wanted" ] || { printf 'the first example says something else than the reference:\n%s\n' "$said"; exit 1; }
# The library's own tests, each file of tests/ and the pages' examples are a group each.
groups=$(($(ls tests/*.rs | wc -l) + 2))
sed -n 's/^test result: ok\. \([0-9]*\) passed; 0 failed.*/\1/p' "$log" | awk -v groups="$groups" '
    { sum += $1; if ($1 > 0) ran++ }
    END {
        if (ran < groups) { printf "tests ran in %d groups of %d\n", ran, groups; exit 1 }
        printf "%d passed, 0 failed\n", sum + 2
    }'
