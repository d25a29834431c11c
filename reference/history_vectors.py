"""Prints what the program `history_vectors` must print, worked out by this reference.

The program's input is what history_cases.py makes. A tree is a line, a line for
each of its calls, in order on the one store, and a line for each place that is
asked for at the end:

    T L H F R build A
    replace Q compressions N DIGEST
    replace Q refused N DIGEST
    push M compressions N DIGEST
    push M refused N DIGEST
    place Q open A verify V read B B ... spoilt B B ... long B

where A is an answer as in the sections that tree_vectors.py describes, with
digests; M is how many records are handed in; and DIGEST is that of the whole
store after the call. V is the verdict on the store's root, the place, its leaf
and its opening. B is what a reader gives, the digest of a level's part
or `refused N`: of the opening for each level and one level too many; the same
after its first number is p, if it has one; and for level 0 after one number more.
The reference takes that leaf from the leaf book, which has
seen neither the store nor an answer, and the program takes it from the store.
"""

from collections.abc import Iterator

import history_cases
import merkle
from field import P
from history_cases import LEAF_PLACES, History, Push, Replace
from parameters import ParameterSet
from tree_cases import TREE_PLACES
from tree_vectors import verdict, written
from vectors import Called, as_digest, case_line, digest

Answer = tuple[str, int | None]


def called(s: ParameterSet, call: Replace | Push, store: list[int]) -> Answer:
    """The answer of a call, on a store that it may change."""
    if isinstance(call, Push):
        return merkle.push(s, store, call.listed())
    return merkle.replace(s, store, call.place, call.leaf.numbers(LEAF_PLACES))


def booked(s: ParameterSet, call: Replace | Push, book: list[list[int]]) -> Answer:
    """The leaf book's answer to a call."""
    if isinstance(call, Push):
        return merkle.book_push(s, book, call.listed())
    return merkle.book_replace(s, book, call.place, call.leaf.numbers(LEAF_PLACES))


def name_of(call: Replace | Push) -> str:
    """What begins a call's line."""
    if isinstance(call, Push):
        return f"push {len(call.listed())}"
    return f"replace {call.place}"


def begun(one: History) -> tuple[ParameterSet, list[int], Called]:
    """The set, the leaves, and the store that building writes."""
    s = one.tree.case.handed()
    leaves = one.tree.leaves.numbers(TREE_PLACES)
    return s, leaves, written(merkle.build, s, leaves, [7] * one.tree.store)


def reading(s: ParameterSet, siblings: list[int], level: int) -> str:
    """What a reader gives for a level."""
    kind, answer = merkle.read_opening(s, siblings, level)
    return f"refused {answer}" if kind == "refused" else str(digest(answer))


def readings(s: ParameterSet, siblings: list[int]) -> str:
    """Each level's part of an opening, of a spoilt one and of one that is too long."""
    spoilt = [P, *siblings[1:]] if siblings else []
    whole, bad = (
        " ".join(reading(s, words, level) for level in range(s.height + 1))
        for words in (siblings, spoilt)
    )
    return f"read {whole} spoilt {bad} long {reading(s, [*siblings, 7], 0)}"


def place_line(s: ParameterSet, one: History, store: list[int], place: int, leaf: list[int]) -> str:
    """The opening of a place, and the verdict on the leaf that the book has there."""
    opened = written(merkle.opening, s, store, place, [7] * one.tree.siblings)
    answer = merkle.verify(s, store[-s.node_size :], place, leaf, opened[1])
    line = f"place {place} open {as_digest(opened)} verify {verdict(*answer)}"
    return f"{line} {readings(s, opened[1])}"


def history_lines(one: History) -> Iterator[str]:
    """The lines of one tree."""
    s, leaves, built = begun(one)
    store, book = list(built[1]), merkle.open_book(s, leaves)
    yield case_line(one.tree.case, "build", as_digest(built))
    for call in one.calls:
        kind, number = called(s, call, store)
        booked(s, call, book)
        said = "refused" if kind == "refused" else "compressions"
        yield f"{name_of(call)} {said} {number} {digest(store)}"
    for place in range(one.tree.places):
        yield place_line(s, one, store, place, book[place])


if __name__ == "__main__":
    for one in history_cases.histories():
        for line in history_lines(one):
            print(line)
