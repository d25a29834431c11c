"""The halves of M_E, called in the archive of `measures` after `tools/library.sh measures`: against the reference, and that one after the other,
on the high parts of numbers and on the low ones, they are M_E. Also that they are in the library as docs/BENCHMARK.md says. The last line
counts the checks."""

import ctypes
import random
import subprocess
import sys
from collections.abc import Callable, Iterator
from pathlib import Path

REPOSITORY = Path(__file__).resolve().parent.parent
sys.path[:0] = [str(REPOSITORY / "reference"), str(REPOSITORY / "bench")]

import poseidon2  # noqa: E402
import profile_halves  # noqa: E402
from field import P  # noqa: E402

HALF = 2**32
MOST = 4 * (HALF - 1)
SMALL = [0, 1, 2, HALF // 2, HALF - 2, HALF - 1]
LARGER = [HALF, 3 * (HALF - 1), MOST - 1, MOST]
NUMBERS = SMALL + LARGER + [2**63, P - 1, P, P + 1, 2**64 - 1]

Words = list[int]
Check = tuple[str, Words, Words]


def archive(name: str) -> Path:
    """Where a static library stands."""
    return REPOSITORY / f"crates/{name}/out/lib{name}.a"


def loaded(name: str) -> ctypes.CDLL:
    """An archive as a library that can be called from here."""
    folder = REPOSITORY / "target/tests"
    folder.mkdir(parents=True, exist_ok=True)
    shared = folder / f"lib{name}.so"
    whole = ["-Wl,--whole-archive", archive(name), "-Wl,--no-whole-archive"]
    subprocess.run(["cc", "-shared", "-o", shared, *whole], check=True)
    return ctypes.CDLL(str(shared))


def half(function: Callable[..., None]) -> Callable[[Words], Words]:
    """A half, from numbers to numbers."""

    def called(numbers: Words) -> Words:
        array = ctypes.c_uint64 * len(numbers)
        count, state = ctypes.c_size_t(len(numbers)), array(*[7] * len(numbers))
        function(count, array(*numbers), count, state, count)
        return list(state)

    return called


def states(rng: random.Random, width: int, edges: list[int], most: int) -> Iterator[Words]:
    """Unit words, edges and drawn numbers up to the largest."""
    yield from ([int(i == j) for j in range(width)] for i in range(width))
    yield from ([edge] * width for edge in edges)
    yield from ([rng.choice(edges) for _ in range(width)] for _ in range(100))
    yield from ([rng.randrange(most + 1) for _ in range(width)] for _ in range(300))


def checks() -> Iterator[Check]:
    """What is checked, what was got, and what is right."""
    measures = loaded("measures")
    sums, m4_blocks = half(measures.measured_sums), half(measures.measured_m4_blocks)
    rng = random.Random(30)
    for width in (4, 8, 12):
        for state in states(rng, width, SMALL, HALF - 1):
            yield f"sums of {state}", sums(state), poseidon2.sums(state)
        for state in states(rng, width, SMALL + LARGER, MOST):
            yield f"M4 in each block of {state}", m4_blocks(state), poseidon2.m4_blocks(state)
        for state in states(rng, width, NUMBERS, 2**64 - 1):
            high = m4_blocks(sums([number // HALF for number in state]))
            low = m4_blocks(sums([number % HALF for number in state]))
            layer = poseidon2.external_layer([number % P for number in state])
            yield f"M_E of {state}", [(a * HALF + b) % P for a, b in zip(high, low)], layer


def symbols(name: str) -> str:
    """The names in an archive, a line for each."""
    return subprocess.run(["nm", archive(name)], check=True, capture_output=True, text=True).stdout


def places() -> Iterator[Check]:
    """In the library the halves are joined with the full rounds, and found there one after the other; `measures` exports both."""
    yield "functions of the layer in the library", [symbols("opening_tree_c").count("layers::external")], [0]
    for width in (4, 8, 12):
        sums, blocks = profile_halves.stretches(profile_halves.built(width), width)
        yield f"t={width}: M4 is found", [min(map(len, blocks)) > 0], [True]
        yield f"t={width}: the sums are found before it", [len(sums) > 0 and sums.stop == blocks[0].start], [width > 4]
    for name in ("measured_sums", "measured_m4_blocks"):
        yield f"{name} in measures", [symbols("measures").count(f" T {name}\n")], [1]


passed = failed = 0
for group in (checks, places):
    for what, got, right in group():
        if got == right:
            passed += 1
        else:
            failed += 1
            print(f"{what}: got {got}, right is {right}")
print(f"{passed} passed, {failed} failed")
sys.exit(failed > 0)
