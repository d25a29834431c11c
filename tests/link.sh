#!/usr/bin/env bash
# Links the library into two C programs, after `make library`: one that calls every function, and the first example, which
# must print what the reference does. Both are built without a warning as C99 and, where there is a C++ compiler, as C++11. Also what the
# library needs of the C library is what its header says. The last line counts the checks.
set -eu
cd "$(dirname "$0")/.."
mkdir -p target/tests
library=crates/opening_tree_c/out/libopening_tree_c.a
wanted=$(python3 examples/first.py)
passed=0

fail() { # WHAT SAID
    printf '%s\n%s\n' "$2" "$1"
    exit 1
}

try() { # COMPILER...: builds and runs both programs, and tries each header by itself
    local said checks header
    for header in opening_tree opening_tree_published; do
        printf '#include "%s.h"\n' "$header" >target/tests/alone.c
        "$@" -pedantic -Wall -Wextra -Werror -O2 -Iinclude -fsyntax-only target/tests/alone.c
        passed=$((passed + 1))
    done
    build "$@" tests/link.c
    said=$(target/tests/program) || fail "tests/link.c, by $*" "$said"
    checks=$(printf '%s\n' "$said" | sed -n '$s/^\([1-9][0-9]*\) passed, 0 failed$/\1/p')
    [ -n "$checks" ] || fail "tests/link.c, by $*: no check was made" "$said"
    passed=$((passed + checks))
    build "$@" examples/first.c
    said=$(target/tests/program) || fail "the first example, by $*" "$said"
    [ "$said" = "$wanted" ] || fail "the first example, by $*, says something else than the reference" "$said"
    passed=$((passed + 1))
}

build() { # COMPILER... SOURCE
    "${@:1:$#-1}" -pedantic -Wall -Wextra -Werror -O2 -Iinclude "${@: -1}" -x none "$library" -o target/tests/program
}

needed=$(nm -u "$library" | awk '$1 == "U" { print $2 }' | sort -u | tr '\n' ' ')
[ "$needed" = 'memcpy memset ' ] || fail "the library needs something else of the C library than its header says" "$needed"
passed=$((passed + 1))

try cc -std=c99
if command -v c++ >/dev/null; then
    try c++ -x c++ -std=c++11
else
    echo "there is no C++ compiler (c++): the headers were not tried as C++"
fi
printf '%d passed, 0 failed\n' "$passed"
