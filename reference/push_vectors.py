"""Prints what the bindings must answer to the cases of push_cases.py, worked out by this
reference.

A tree is a line, and a line for each of its pushes, in order on the one store:

    T L H F R pushes N
    push M compressions N changed C PLACE WORD ...
    push M refused N

where M is how many records are handed in, and C how many of the store's numbers
are others after the push; for each of these its PLACE in the store and what it is
now, a WORD, follow, by rising places.
"""

from collections.abc import Iterator

import merkle
import push_cases
from push_cases import RECORD_PLACES, Pushes
from vectors import case_line


class Sparse:
    """A store of zeros, but for the numbers that are kept. It is read and written by parts. To
    go over its numbers is to go over those that are kept, and one 0."""

    def __init__(self, length: int, kept: dict[int, int]):
        self.length, self.kept = length, kept

    def __len__(self) -> int:
        return self.length

    def __iter__(self) -> Iterator[int]:
        yield 0
        yield from self.kept.values()

    def __getitem__(self, part: slice) -> list[int]:
        return [self.kept.get(n, 0) for n in range(*part.indices(self.length))]

    def __setitem__(self, part: slice, words: list[int]) -> None:
        places = range(*part.indices(self.length))
        self.kept.update(zip(places, words, strict=True))


def begun(one: Pushes) -> Sparse:
    """The store before the first push."""
    runs = one.written.runs
    kept = {at + i: n for at, numbers in runs for i, n in enumerate(numbers)}
    return Sparse(one.tree.store, kept)


def changes(before: dict[int, int], after: dict[int, int]) -> list[tuple[int, int]]:
    """The places of the numbers that became others, and what they became."""
    return sorted((n, word) for n, word in after.items() if word != before.get(n, 0))


def pushes_lines(one: Pushes) -> Iterator[str]:
    """The lines of one tree."""
    s, store = one.tree.case.handed(), begun(one)
    yield case_line(one.tree.case, "pushes", str(len(one.pushes)))
    for push in one.pushes:
        records, before = push.listed(RECORD_PLACES), dict(store.kept)
        kind, number = merkle.push(s, store, records)
        if kind == "refused":
            yield f"push {len(records)} refused {number}"
            continue
        changed = changes(before, store.kept)
        numbers = "".join(f" {place} {word}" for place, word in changed)
        yield f"push {len(records)} compressions {number} changed {len(changed)}{numbers}"


if __name__ == "__main__":
    for one in push_cases.all_pushes():
        for line in pushes_lines(one):
            print(line)
