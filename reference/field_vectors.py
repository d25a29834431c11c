"""The section `field` of what the program `vectors` must print (vectors.py).

It tests six entries, always in this order: sum, difference, product, power,
inverse, seventh_root. The first four have two operands A and B (for power, A is
the base and B the exponent), the last two have one operand A. An operand may be
any number from 0 to 2^64 - 1, whether a word or not. An entry's answer is a word
R or a refusal number N (12 or 13): of sum, difference, inverse and seventh_root
12 if an operand isn't a word, else 13 for the inverse of 0; product and power
always give a word.

Part 1, lines with operands. The line of a case is one of

    ENTRY A B = R             ENTRY A = R
    ENTRY A B refused N       ENTRY A refused N

where ENTRY is the entry's name. First come these fifteen cases, a line each,
with the numbers written for the names:

    product P-1 P-1                     p - 1
    product 4294967296 4294967296
    product 281474976710656 281474976710656
    product P P                         p
    product P+1 P-1                     p + 1, p - 1
    product M M                         M = 2^64 - 1
    difference 0 1
    inverse 2
    seventh_root 128
    sum P 0
    sum P-1 0
    power 0 0
    power P 0
    power P 1
    power P+2 7                         p + 2

Then come the edges. The twelve edge numbers are, in this order: 0, 1, 2^32 - 1,
2^32, 2^32 + 1, 2^63, 2p modulo 2^64, p - 2, p - 1, p, p + 1, 2^64 - 1. For each of
sum, difference, product, power: for each edge number A, for each edge number B, a
line (B changes fastest; 144 lines an entry). Then for each of inverse,
seventh_root: for each edge number A, a line (12 lines an entry).

Part 2, seeded. For each of the six entries: the line `ENTRY seeded 2000`, then
2000 lines, each either `R` or `refused N` and no operands. The operands are drawn
from the generator of 64-bit numbers that generator.py describes. Each entry
starts a generator of its own, with seed I, where I is 0 for sum, 1 for
difference, and so on to 5 for seventh_root. To draw an operand: draw a number x;
if x mod 16 is 0 the operand is x with its high 32 bits all set to one, otherwise
it is x. (The generator goes on from the drawn x, not from the operand.) For each
line: sum, difference and product draw the operand A, then the operand B; power
draws the operand A, then the exponent B as a plain drawn number; inverse and
seventh_root draw the operand A.

Part 3, unreduced. For product and then power: the line `ENTRY unreduced 3000`,
then 3000 lines as in part 2, with the seeds 6 and 7, but for operands of which
every other one has its high bits set: if x mod 2 is 0.

The section has 1 + 15 + 4 * 144 + 2 * 12 + 6 * 2001 + 2 * 3001 = 18624 lines.
"""

from collections.abc import Callable, Iterator

import field
from field import P
from generator import drawn_numbers

ENTRIES = [
    ("sum", field.sum),
    ("difference", field.difference),
    ("product", field.product),
    ("power", field.power),
    ("inverse", field.inverse),
    ("seventh_root", field.seventh_root),
]
ENTRIES_OF_TWO = ENTRIES[:4]
ENTRIES_OF_ONE = ENTRIES[4:]
ENTRIES_OF_ANY = ENTRIES[2:4]

LARGEST = 2**64 - 1
WORKED = [
    ("product", field.product, [P - 1, P - 1]),
    ("product", field.product, [2**32, 2**32]),
    ("product", field.product, [2**48, 2**48]),
    ("product", field.product, [P, P]),
    ("product", field.product, [P + 1, P - 1]),
    ("product", field.product, [LARGEST, LARGEST]),
    ("difference", field.difference, [0, 1]),
    ("inverse", field.inverse, [2]),
    ("seventh_root", field.seventh_root, [128]),
    ("sum", field.sum, [P, 0]),
    ("sum", field.sum, [P - 1, 0]),
    ("power", field.power, [0, 0]),
    ("power", field.power, [P, 0]),
    ("power", field.power, [P, 1]),
    ("power", field.power, [P + 2, 7]),
]
EDGES = [0, 1, 2**32 - 1, 2**32, 2**32 + 1, 2**63, 2 * P % 2**64, P - 2, P - 1, P, P + 1, LARGEST]

SEEDED_LINES = 2000
SEEDED_HIGH = 16
UNREDUCED_LINES = 3000
UNREDUCED_HIGH = 2
HIGH_HALF = 2**64 - 2**32


def draw_operand(numbers: Iterator[int], high: int) -> int:
    """An operand: one in so many gets high bits of one, so mostly isn't a word."""
    x = next(numbers)
    return x | HIGH_HALF if x % high == 0 else x


def draw_operands(name: str, numbers: Iterator[int], high: int) -> list[int]:
    """The operands of one seeded line."""
    first = draw_operand(numbers, high)
    if name in ("sum", "difference", "product"):
        return [first, draw_operand(numbers, high)]
    if name == "power":
        return [first, next(numbers)]
    return [first]


def field_line(name: str, entry: Callable, operands: list[int]) -> str:
    """A line with operands."""
    kind, number = entry(*operands)
    middle = "=" if kind == "word" else "refused"
    return " ".join([name, *map(str, operands), middle, str(number)])


def seeded_line(entry: Callable, operands: list[int]) -> str:
    """A line without operands."""
    kind, number = entry(*operands)
    return str(number) if kind == "word" else f"refused {number}"


def field_lines_with_operands() -> Iterator[str]:
    """Part 1: the worked cases, then the edges."""
    for name, entry, operands in WORKED:
        yield field_line(name, entry, operands)
    for name, entry in ENTRIES_OF_TWO:
        for a in EDGES:
            for b in EDGES:
                yield field_line(name, entry, [a, b])
    for name, entry in ENTRIES_OF_ONE:
        for a in EDGES:
            yield field_line(name, entry, [a])


def seeded_operands(name: str, seed: int, lines: int, high: int) -> Iterator[list[int]]:
    """The operands of an entry's seeded lines."""
    numbers = drawn_numbers(seed)
    for _ in range(lines):
        yield draw_operands(name, numbers, high)


def field_lines_seeded() -> Iterator[str]:
    """Part 2: seeded operands, most of which are words."""
    for seed, (name, entry) in enumerate(ENTRIES):
        yield f"{name} seeded {SEEDED_LINES}"
        for operands in seeded_operands(name, seed, SEEDED_LINES, SEEDED_HIGH):
            yield seeded_line(entry, operands)


def field_lines_unreduced() -> Iterator[str]:
    """Part 3: seeded operands, about half of which are no words."""
    for seed, (name, entry) in enumerate(ENTRIES_OF_ANY, len(ENTRIES)):
        yield f"{name} unreduced {UNREDUCED_LINES}"
        for operands in seeded_operands(name, seed, UNREDUCED_LINES, UNREDUCED_HIGH):
            yield seeded_line(entry, operands)


def field_section() -> Iterator[str]:
    """Section field."""
    yield from field_lines_with_operands()
    yield from field_lines_seeded()
    yield from field_lines_unreduced()
