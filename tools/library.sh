#!/usr/bin/env bash
# usage: library.sh NAME..
# Proves and builds static libraries, for every x86-64: crates/NAME/out/libNAME.a. The crates below one are proved first where they are not yet,
# as many at a time as there are processors.
set -euo pipefail
cd "$(dirname "$0")/../crates"
for crate in "$@"; do
    (cd "$crate" && rt all check --jobs "$(nproc)" && rt lib --cpu x86-64)
done
