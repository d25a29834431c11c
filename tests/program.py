"""Runs the root program on many inputs and compares it with the reference.

One line is printed for each input on which they differ, and the totals last.
The inputs are the same in every run.
"""

import random
import subprocess
import sys
from collections.abc import Iterator
from pathlib import Path

REPOSITORY = Path(__file__).resolve().parent.parent
sys.path.insert(0, str(REPOSITORY / "reference"))

import program  # noqa: E402
from field import P  # noqa: E402
from parameters import constant_count  # noqa: E402

ROOT = REPOSITORY / "crates" / "root" / "out" / "root"
MOST_NUMBERS = program.MOST_BYTES // 8
LARGEST = 2**64 - 1
SHAPES = [(t, l) for t in (4, 8, 12) for l in range(1, t) if t % l == 0]
EDGES = [0, 1, 2, 3, 5, 13, 64, 65, 2**32, 2**62, 2**63, P - 1, P, P + 1, LARGEST]

Input = tuple[str, bytes]


def packed(numbers: list[int]) -> bytes:
    """The bytes of some numbers, eight for each, the lowest first."""
    return b"".join(n.to_bytes(8, "little") for n in numbers)


def worked() -> list[int]:
    """The set T and the leaves of its worked case (docs/RULES.md, 9)."""
    constants = [0, 0, 0, 0, P - 505316, P - 410806, P - 127289, P - 94519]
    return [4, 2, 1, 2, 0] + [1, 2, 3, 4] + constants + [1, 0, 0, 0]


def drawn(seed: int, t: int, l: int, h: int, full: int, partial: int) -> list[int]:
    """A set that is accepted, and its leaves."""
    rng = random.Random(seed)
    count = constant_count(t, full, partial)
    diagonal = [rng.randrange(1, P) for _ in range(t)]
    constants = [rng.randrange(P) for _ in range(count)]
    leaves = [rng.randrange(P) for _ in range((t // l) ** h * l)]
    return [t, l, h, full, partial] + diagonal + constants + leaves


def highest(t: int, l: int, full: int, partial: int) -> int:
    """The greatest height whose leaves the input has room for."""
    room = MOST_NUMBERS - 5 - t - constant_count(t, full, partial)
    h = 0
    while (t // l) ** (h + 1) * l <= room:
        h += 1
    return h


def accepted() -> Iterator[Input]:
    """Every width and node size, at small heights and at the greatest."""
    yield "worked", packed(worked())
    for t, l in SHAPES:
        for h in range(4):
            full, partial = 2 + 2 * ((t + l + h) % 6), 7 * h + l
            if h <= highest(t, l, full, partial) and (t // l) ** h <= 256:
                numbers = drawn(1000 * t + 10 * l + h, t, l, h, full, partial)
                yield f"t={t} l={l} h={h}", packed(numbers)
        h = highest(t, l, 2, 0)
        yield f"t={t} l={l} h={h}, the greatest", packed(drawn(t + l, t, l, h, 2, 0))
    yield "most rounds", packed(drawn(7, 12, 6, 2, 12, 64))


def cut_short() -> Iterator[Input]:
    """An end within the five numbers, D, C or the leaves, at a number or not."""
    for name, numbers in [("worked", worked()), ("t=8", drawn(3, 8, 4, 1, 2, 3))]:
        data = packed(numbers)
        for end in range(0, len(data), 8):
            yield f"{name} cut at {end}", data[:end]
        for end in [1, 7, 33, 39, 41, 47, 73, len(data) - 9, len(data) - 1]:
            yield f"{name} cut at {end}", data[:end]


def padded() -> Iterator[Input]:
    """More bytes than the leaves are."""
    data = packed(worked())
    for more in range(1, 17):
        yield f"worked and {more} zero bytes", data + bytes(more)
    yield "worked and 8 bytes of ones", data + b"\xff" * 8


def counted() -> Iterator[Input]:
    """Byte counts about the least and the most."""
    most = program.MOST_BYTES
    for name, front in [("zeros", b""), ("worked", packed(worked()))]:
        for length in [39, 40, 41, 48, most - 8, most - 1, most, most + 1, most + 8]:
            yield f"{name} in {length} bytes", (front + bytes(length))[:length]
    full = packed(drawn(11, 4, 1, 6, 2, 0))
    yield "4,096 leaves and 9 numbers over", full + bytes(72)
    yield "a long input", bytes(100_000)


def changed(numbers: list[int], place: int, value: int) -> list[int]:
    """The numbers with another at a place."""
    return numbers[:place] + [value] + numbers[place + 1 :]


def five_changed() -> Iterator[Input]:
    """Each of the five numbers at an edge: 1 to 6, 10 and what is accepted."""
    for place, name in enumerate(["t", "l", "h", "R_F", "R_P"]):
        for value in EDGES + [4, 8, 12, 14, 16, 32, 33]:
            yield f"{name}={value}", packed(changed(worked(), place, value))
    wraps = [(1, 0, LARGEST), (3, 2**62, 0), (0, 2**63, 2), (0, LARGEST, LARGEST)]
    for t, full, partial in wraps:
        numbers = [t, 2, 1, full, partial] + worked()[5:]
        yield f"t={t} R_F={full} R_P={partial}", packed(numbers)


def words_changed() -> Iterator[Input]:
    """Words of D, C and the leaves at edges: 7, 8, 9 and 12."""
    for place in [5, 8, 9, 16, 17, 20]:
        for value in [0, P - 1, P, LARGEST]:
            yield f"number {place} is {value}", packed(changed(worked(), place, value))
    cancelling = worked()[:5] + [P - 4] * 4 + worked()[9:]
    yield "refusal 9", packed(cancelling)
    yield "refusal 9, and a leaf not a word", packed(changed(cancelling, 17, P))
    yield "refusal 9, and a leaf too many", packed(cancelling + [0, 0])
    yield "a leaf too many, and one not a word", packed(worked() + [P, 0])
    yield "a zero in D, and C not words", packed(changed(changed(worked(), 5, 0), 9, P))
    for t, l in SHAPES:
        yield f"a zero in D, t={t} l={l}", packed(changed(drawn(l, t, l, 1, 2, 3), 5 + l, 0))
    zeros = changed(changed(worked(), 5, 0), 7, 0)
    yield "two zeros in D", packed(zeros)
    yield "two zeros in D, and a leaf not a word", packed(changed(zeros, 17, P))


def seeded_damage() -> Iterator[Input]:
    """One or two numbers at any place, drawn or at an edge."""
    rng = random.Random(2026)
    for i in range(60):
        t, l = SHAPES[i % len(SHAPES)]
        numbers = drawn(i, t, l, 1, 2 + 2 * (i % 3), i % 5)
        for _ in range(1 + i % 2):
            value = rng.choice(EDGES + [rng.randrange(2**64)])
            numbers[rng.randrange(len(numbers))] = value
        yield f"damaged {i}", packed(numbers)


def inputs() -> Iterator[Input]:
    """All inputs."""
    yield from accepted()
    yield from cut_short()
    yield from padded()
    yield from counted()
    yield from five_changed()
    yield from words_changed()
    yield from seeded_damage()


def main() -> int:
    """Runs every input; answers the exit status, which is 0 where there are some and none differs."""
    passed = failed = 0
    for name, data in inputs():
        expected = program.run(data)
        ran = subprocess.run([ROOT], input=data, stdout=subprocess.PIPE)
        if ran.returncode == 0 and ran.stdout == expected:
            passed += 1
        else:
            failed += 1
            print(f"{name}: got {ran.stdout!r} and status {ran.returncode}, expected {expected!r}")
    print(f"{passed} passed, {failed} failed")
    return 0 if passed and not failed else 1


if __name__ == "__main__":
    sys.exit(main())
