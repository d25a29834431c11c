"""Shows the halves of M_E in a profile of the built library: how many instructions of a permutation are the sums, and how many M4 in each block.

usage: profile_halves.py, after `make library`; needs cc, objdump and valgrind

The compiler joins both halves with the full rounds, so that a profiler names one function for them, permutation::rounds::full_rounds::<=3> for
t = 12. Within its loop they stand one after the other. The loop begins where its last jump leads back to; M4 begins at the first sum with
a factor of 2, `lea (a,b,2)`, to within a few instructions; and it ends where the loop asks whether a round is left, at the first jump under a
condition. By these places any profile of the library by addresses can be read. At t = 4 there are no sums, and M4 begins with the loop.
"""

import re
import subprocess
from collections import Counter
from pathlib import Path

REPOSITORY = Path(__file__).resolve().parent.parent
FOLDER = REPOSITORY / "target/bench"
PERMUTATIONS = 100
FULL, PARTIAL = 8, 22
LINE = re.compile(r"^ *([0-9a-f]+):\t(\S+) *(.*)$")
SOURCE = """
#include "opening_tree.h"
#include <stdlib.h>
int main(int count, char **words) {
    uint64_t diagonal[12], constants[118], state[12], set[OPENING_TREE_SET_SIZE];
    for (int i = 0; i < 12; i++) diagonal[i] = 3 * i + 2, state[i] = i;
    for (int i = 0; i < 118; i++) constants[i] = 1000003 * (uint64_t)i;
    if (opening_tree_validate(T, 1, 1, FULL, PARTIAL, diagonal, T, constants, T * FULL + PARTIAL, set)) return 1;
    for (int i = 0; i < atoi(words[count - 1]); i++)
        if (opening_tree_permute(set, state, T)) return 1;
    return 0;
}
"""


def said(*command: object) -> str:
    """What a command prints."""
    return subprocess.run([str(word) for word in command], check=True, capture_output=True, text=True).stdout


def built(width: int) -> Path:
    """A program that makes as many permutations as it is told, through the library."""
    FOLDER.mkdir(parents=True, exist_ok=True)
    source, program = FOLDER / "profile.c", FOLDER / f"profile{width}"
    source.write_text(SOURCE, encoding="utf-8")
    numbers = {"T": width, "FULL": FULL, "PARTIAL": PARTIAL}
    defined = [f"-D{name}={number}" for name, number in numbers.items()]
    library = REPOSITORY / "crates/opening_tree_c/out/libopening_tree_c.a"
    said("cc", "-no-pie", "-O1", f"-I{REPOSITORY}/include", *defined, source, library, "-o", program)
    return program


def stretches(program: Path, width: int) -> tuple[range, list[range]]:
    """The addresses of the sums, and those of M4 in each block."""
    name = f"permutation::rounds::full_rounds::<={width // 4}>"
    text = said("objdump", "-d", "--no-show-raw-insn", f"--disassemble={name}", program)
    code = [(int(m[1], 16), m[2], m[3]) for m in map(LINE.match, text.splitlines()) if m]
    back = [int(operand.split()[0], 16) for at, jump, operand in code if jump == "jmp" and int(operand.split()[0], 16) < at]
    loop = back[-1]
    ends = [at for at, jump, _ in code if jump.startswith("j") and jump != "jmp"]
    end = next(at for at in ends if at > loop)
    if width == 4:
        return range(0), [range(loop, end)]
    doubled = next(at for at, what, operand in code if at > loop and what == "lea" and ",2)" in operand)
    return range(loop, doubled), [range(doubled, end)]


def counts(program: Path, permutations: int) -> Counter[int]:
    """How many times the instruction at each address is executed."""
    out = program.with_suffix(".callgrind")
    options = ["--tool=callgrind", "--dump-instr=yes", "--compress-pos=no", f"--callgrind-out-file={out}"]
    said("valgrind", "-q", *options, program, permutations)
    counted, called = Counter(), False
    for line in out.read_text(encoding="utf-8").splitlines():
        if line.startswith("0x") and not called:
            at, *_, count = line.split()
            counted[int(at, 16)] += int(count)
        called = line.startswith("calls=")
    return counted


def main() -> None:
    """Prints a row for each width."""
    print("| t | instructions of `opening_tree_permute` | sums | of all | M4 in each block | of all |")
    print("|--:|--:|--:|--:|--:|--:|")
    for width in (4, 8, 12):
        program = built(width)
        # What some permutations more take is theirs alone.
        counted = counts(program, 2 * PERMUTATIONS)
        counted.subtract(counts(program, PERMUTATIONS))
        sums, blocks = stretches(program, width)
        whole = sum(counted.values()) / PERMUTATIONS
        first = sum(counted[at] for at in counted if at in sums) / PERMUTATIONS
        second = sum(counted[at] for at in counted if any(at in block for block in blocks)) / PERMUTATIONS
        print(f"| {width} | {whole:,.0f} | {first:,.0f} | {first / whole:.1%} | {second:,.0f} | {second / whole:.1%} |")


if __name__ == "__main__":
    main()
