"""Makes the cases on which the bindings' sets, and the permutation both ways, are held to the
reference: D without a zero, with one, with two and with more, at every width.

The numbers have the form that cases.py describes, with its sets and lists. The first
line is how many lines follow, each of them

    SET BEYOND D C STATE

which is a set, of few rounds and some of them partial, and a state.
"""

from collections.abc import Callable, Iterator
from itertools import combinations, islice

from cases import (
    LIST_DIAGONAL_PLACES,
    Case,
    Fault,
    altered,
    at,
    cancelling,
    cancelling_beside,
    counted,
    seeded,
    zeros,
)
from field import P
from generator import drawn_numbers

# So often each kind is made at a width. There are 132 ways to choose a place of 12 and another.
TURNS = 132

# Words whose inverses are small, so that some of their sums cancel.
EDGES = [0, 1, P - 1, 2, P - 2, (P + 1) // 2, (P - 1) // 2]

# What a kind changes in D, from D's drawn words and a turn, by which it takes other places.
Kind = Callable[[list[int], int], list[Fault]]


def place_of(words: list[int], turn: int) -> int:
    """Every place in turn."""
    return turn % len(words)


def other_place(words: list[int], turn: int) -> int:
    """Another place, every other one in turn."""
    t = len(words)
    return (turn + 1 + turn // t % (t - 1)) % t


def shuffled(words: list[int], turn: int) -> list[int]:
    """The places of D in a drawn order."""
    drawn = islice(drawn_numbers(turn), len(words))
    return [place for _, place in sorted(zip(drawn, range(len(words))))]


def no_zero(words: list[int], turn: int) -> list[Fault]:
    """As drawn: no word is 0, nor do the inverses cancel."""
    return []


def no_zero_cancelling(words: list[int], turn: int) -> list[Fault]:
    """1 and the inverses add up to 0."""
    return [cancelling(words, place_of(words, turn))]


def one_zero(words: list[int], turn: int) -> list[Fault]:
    """One zero."""
    return [zeros(place_of(words, turn))]


def one_zero_cancelling(words: list[int], turn: int) -> list[Fault]:
    """One zero; 1 and the inverses of the others add up to 0."""
    return cancelling_beside(words, other_place(words, turn), place_of(words, turn))


def pair_of(words: list[int], turn: int) -> tuple[int, int]:
    """Every two places in turn."""
    pairs = [*combinations(range(len(words)), 2)]
    return pairs[turn % len(pairs)]


def two_zeros(words: list[int], turn: int) -> list[Fault]:
    """Two zeros."""
    return [zeros(*pair_of(words, turn))]


def two_zeros_cancelling(words: list[int], turn: int) -> list[Fault]:
    """Two zeros; 1 and the inverses of the others add up to 0."""
    pair = pair_of(words, turn)
    place = next(n for n in shuffled(words, turn) if n not in pair)
    return cancelling_beside(words, place, *pair)


def more_zeros(words: list[int], turn: int) -> list[Fault]:
    """Three zeros or more, up to all."""
    return [zeros(*shuffled(words, turn)[: 3 + turn % (len(words) - 2)])]


def minus_ones(words: list[int], turn: int) -> list[Fault]:
    """p - 1 at half of the places, where M_I then has 0; by turns without a zero and with one."""
    t = len(words)
    places = shuffled(words, turn)[: t // 2]
    changes = [at("diagonal", place, P - 1) for place in places]
    return changes + [zeros(place_of(words, turn // 2))] if turn % 2 else changes


def edges(words: list[int], turn: int) -> list[Fault]:
    """Drawn ones of few words, 0 among them."""
    return [at("diagonal", i, EDGES[word % len(EDGES)]) for i, word in enumerate(words)]


KINDS: list[Kind] = [
    no_zero,
    no_zero_cancelling,
    one_zero,
    one_zero_cancelling,
    two_zeros,
    two_zeros_cancelling,
    more_zeros,
    minus_ones,
    edges,
]


def all_diagonals() -> Iterator[Case]:
    """At every width each kind, as often as there are turns."""
    seed = 10000
    for t in (4, 8, 12):
        for kind in KINDS:
            for turn in range(TURNS):
                case = seeded(t, t // 2, 1, 2, 1 + turn % 4, seed)
                words = case.diagonal.numbers(LIST_DIAGONAL_PLACES)
                yield altered(case, *kind(words, turn))
                seed += 3


def lines() -> list[str]:
    """Every line."""
    return counted([[*case.set_text(), *case.state.text()] for case in all_diagonals()])


if __name__ == "__main__":
    for line in lines():
        print(line)
