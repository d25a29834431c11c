"""Makes the input of the program `file_vectors`: sets, and the contents of files.

The numbers have the form that cases.py describes, with its sets and lists. The
first line is how many lines follow, each of them one of

    1 SET BEYOND D C LEAF CONTENTS               a file
    2 SET BEYOND D C LEAF FIRST LAST CONTENTS    files that begin alike

where LEAF is the length of the leaf's buffer, at most 16, each of whose numbers
is 7 before, and CONTENTS is a list, made in a buffer of 16,384 places. Its
numbers modulo 256 are bytes: a file's contents are all of them, and those of
files that begin alike the first n, for each n from FIRST to LAST.

Each line knows the number that it is to be refused with, 0 for none.
"""

from collections.abc import Iterator
from dataclasses import dataclass
from itertools import combinations

import published
from cases import (
    LARGEST,
    SIZES,
    STATE_BASES,
    Case,
    Listed,
    altered,
    case_t,
    case_u,
    changed,
    counted,
    faulted,
    highest,
    seeded,
    set_faults,
    turned,
    zeros,
)
from field import P
from files import WORD_BYTES, message

CONTENTS_PLACES = 16384
LEAF_PLACES = 16

FILE, BEGINNINGS = 1, 2


@dataclass
class Files:
    """A set and a leaf's buffer, which is the case's node; the bytes; and how many of
    them each file has, None for one file with all of them."""

    case: Case
    contents: Listed
    lengths: range | None = None

    def line(self) -> list[int]:
        """The line that asks for this."""
        case = [*self.case.set_text(), self.case.node]
        if self.lengths is None:
            return [FILE, *case, *self.contents.text()]
        ends = [self.lengths[0], self.lengths[-1]]
        return [BEGINNINGS, *case, *ends, *self.contents.text()]

    def each(self) -> Iterator[bytes]:
        """The contents of each file."""
        numbers = self.contents.numbers(CONTENTS_PLACES)
        data = bytes(n % 256 for n in numbers)
        for length in [len(data)] if self.lengths is None else self.lengths:
            assert length <= len(data)
            yield data[:length]


def written_out(data: bytes) -> Listed:
    """Bytes that are written out."""
    return Listed(len(data), 0, [(0, [*data])] if data else [])


def block_bytes(width: int, node_size: int) -> int:
    """The bytes of a message block."""
    return WORD_BYTES * (width - node_size)


def fullest(width: int, node_size: int, blocks: int) -> int:
    """The length of the longest contents that so many message blocks have room for."""
    room = blocks * block_bytes(width, node_size)
    return max(n for n in range(room) if len(message(bytes(n))) < room)


# Files without a fault.

TEXTS = [
    b"",
    b"a",
    b"hello\n",
    b"blob 0\0",
    b"a\0b\0\0c",
    "Größe, 大きさ, μέγεθος 🌳\n".encode(),
    bytes(range(256)),
]


def worked_sets() -> Iterator[Files]:
    """T and U."""
    for text in TEXTS:
        yield Files(case_t(), written_out(text))
        yield Files(case_u(), written_out(text))


def published_sets() -> Iterator[Files]:
    """The published instances, each with two node sizes."""
    for instance in published.INSTANCES:
        t = instance["width"]
        full, partial = instance["full_rounds"], instance["partial_rounds"]
        for l in (t // 2, t // 4):
            case = seeded(t, l, 2, full, partial, 0)
            case.diagonal.write(0, *instance["diagonal"])
            case.constants.write(0, *instance["constants"])
            lengths = range(fullest(t, l, 1) - 1, fullest(t, l, 1) + 3)
            yield Files(case, Listed(lengths[-1], t), lengths)


def every_length() -> Iterator[Files]:
    """Every width and node size, with every length from 0 to three message blocks."""
    for i, (t, l) in enumerate(SIZES):
        most, height = 3 * block_bytes(t, l), 5 * i % (highest(t, l) + 1)
        case = seeded(t, l, height, 2 + 2 * (i % 6), 13 * i % 65, 3 * i)
        yield Files(case, Listed(most, 30 + i), range(most + 1))


def seeded_sets() -> Iterator[Files]:
    """Every number of full rounds, with a fifth of the numbers of partial ones."""
    for i in range(6 * 13):
        t, l = SIZES[(i + i // 6) % len(SIZES)]
        height, partial = i % (highest(t, l) + 1), i // 6 * 16 % 65
        case = seeded(t, l, height, 2 + 2 * (i % 6), partial, 100 + 3 * i)
        yield Files(case, Listed(i * 11 % 131, i))


# What contents end in: a byte 01 and zeros, as a padded message does; zeros; 255.
ENDINGS = [[1, 0, 0, 0], [1, 1, 1, 1], [0, 0, 0, 0], [255, 255, 255, 255]]


def endings() -> Iterator[Files]:
    """Each ending, and each of its beginnings, where a message block is just full."""
    for i, (t, l) in enumerate(SIZES):
        for j, ending in enumerate(ENDINGS):
            place = fullest(t, l, 1 + (i + j) % 2) - 2
            case = seeded(t, l, 1, 2 + 2 * (j % 3), i, 7 * i)
            contents = Listed(place + len(ending), 40 + i, [(place, ending)])
            yield Files(case, contents, range(place + 1, contents.count + 1))


def same_bytes() -> Iterator[Files]:
    """Nothing but zeros, and nothing but 255."""
    for i, (t, l) in enumerate(SIZES):
        for value in (0, 255):
            most = fullest(t, l, 1 + i % 2) + 2
            case = seeded(t, l, 1, 4, i, 7 * i)
            contents = Listed(most, 0, [(0, [value] * most)])
            yield Files(case, contents, range(most - 4, most + 1))


def long_lengths() -> Iterator[Files]:
    """Lengths whose decimal has a digit more than the one before, and the longest."""
    for i, (t, l) in enumerate(SIZES):
        for most in (10, 100, 1000):
            case = seeded(t, l, 1, 4, i, 9 * i)
            yield Files(case, Listed(most, i), range(most - 1, most + 1))
    for t, l in ((4, 2), (8, 4), (12, 1)):
        yield Files(seeded(t, l, 1, 2, 3, t), Listed(10000, t), range(9999, 10001))
    yield Files(seeded(12, 6, 1, 2, 3, 2), Listed(CONTENTS_PLACES, 7))


def unused_places() -> Iterator[Files]:
    """What a set holds in places that aren't used changes nothing."""
    for i, (t, l) in enumerate(SIZES):
        for beyond in (0, P, LARGEST):
            case = seeded(t, l, 1, 2 + 2 * (i % 5), 7 * i, 560 + 3 * i)
            case.beyond = beyond
            yield Files(case, Listed(5 * i, i))


def zeros_in_sets() -> Iterator[Files]:
    """Every width and node size with a zero in D, at another place each time."""
    for i, (t, l) in enumerate(SIZES):
        case = altered(seeded(t, l, 1, 2, 1 + i % 3, 30 + 3 * i), zeros(i % t))
        yield Files(case, Listed(9 * i, i))


# Files with a fault.


def refused_sets() -> Iterator[Files]:
    """Each refusal of a set alone, in each of its ways."""
    for i, base in enumerate(STATE_BASES):
        for number, ways in set_faults(base).items():
            for fault in ways:
                yield Files(faulted(base, (number, fault)), Listed(20 * i, i))


def refused_leaves() -> Iterator[Files]:
    """10: a leaf's buffer of another length than l."""
    for i, (t, l) in enumerate(SIZES):
        base = seeded(t, l, 1, 2, i, 3 * i)
        for length in sorted({0, l - 1, l + 1, t, LEAF_PLACES}):
            yield Files(faulted(base, (10, changed("node", length))), Listed(9 * i, i))


def refused_twice() -> Iterator[Files]:
    """Two refusals at once, in one way for each base: the first is answered."""
    for i, base in enumerate(STATE_BASES):
        ways, l = set_faults(base), base.node_size
        ways[10] = [changed("node", n) for n in (0, l + 1, l - 1)]
        for one, other in combinations(ways, 2):
            if (one, other) != (8, 9):
                first, second = turned(ways[one], i), turned(ways[other], one + i)
                yield Files(faulted(base, (one, first), (other, second)), Listed(i, i))


def refused_beginnings() -> Iterator[Files]:
    """A refusal is answered for contents of any length."""
    base = STATE_BASES[0]
    for number, fault in ((10, changed("node", 3)), (4, changed("partial_rounds", 65))):
        yield Files(faulted(base, (number, fault)), Listed(30, 1), range(31))


PARTS = [
    worked_sets,
    published_sets,
    every_length,
    seeded_sets,
    endings,
    same_bytes,
    long_lengths,
    unused_places,
    zeros_in_sets,
    refused_sets,
    refused_leaves,
    refused_twice,
    refused_beginnings,
]


def all_files() -> Iterator[Files]:
    """What every line asks for."""
    for part in PARTS:
        yield from part()


def lines() -> list[str]:
    """Every line of the input."""
    return counted([files.line() for files in all_files()])


if __name__ == "__main__":
    for line in lines():
        print(line)
