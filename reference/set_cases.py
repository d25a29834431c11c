"""Makes the input of the program `set_vectors`: sets to validate, sets that are handed in
with kept values that are right or not, and exchanges of D and of h.

The numbers have the form that cases.py describes, with its sets and lists. The
first line is how many lines follow, each of them one of

    1 SET D C                                         validate
    2 SET BEYOND D C KEPT HELD PLACE STATE NODE       entries of trees and of states
    3 SET BEYOND D C KEPT NEW                         exchange_diagonal
    4 SET BEYOND D C KEPT HEIGHT                      exchange_height

where validate's line is that of cases.py, and the set of the other lines is the one
that cases.py makes of SET BEYOND D C, but for its kept values: KEPT is

    RUNS {PLACE LENGTH VALUE ...} ...

and each of the RUNS runs writes its LENGTH values over them from its PLACE on. The
places 0 to 11 are the 12 kept inverses of D, and 12 is the kept inverse of 1 plus
their sum. HELD and PLACE are those of tree_cases.py, for the entries of a tree;
STATE and NODE are two numbers COUNT FAULT like those of HELD, with the seeds 5 and
6. The state is for permute, unpermute and compress, and the node is the buffer that
compress writes to. NEW is the D that is exchanged for, a list in a buffer of 16
places, and HEIGHT the h.

Each line knows the number that it is to be refused with, 0 for none.
"""

from collections.abc import Callable, Iterator, Sequence
from dataclasses import dataclass, field
from itertools import product

import cases
import diagonal_cases
from cases import (
    LARGEST,
    LIST_DIAGONAL_PLACES,
    SIZES,
    VALIDATE,
    Case,
    Fault,
    Listed,
    all_of,
    altered,
    at,
    cancelling,
    cancelling_beside,
    case_t,
    case_u,
    case_v,
    changed,
    counted,
    faulted,
    faults,
    highest,
    longer,
    seeded,
    set_faults,
    turned,
    zeros,
)
from field import P
from parameters import DIAGONAL_PLACES, ParameterSet, kept_values
from tree_cases import CallFault, Calls, held_counts, held_lists, tree_sizes

ENTRIES, EXCHANGE_DIAGONAL, EXCHANGE_HEIGHT = range(2, 5)

# The place of the kept inverse of 1 plus the inverses of D, after these.
TOTAL = DIAGONAL_PLACES

WIDTHS = (4, 8, 12)


@dataclass
class KeptCase(Case):
    """A case whose set is handed in with numbers written over its kept values."""

    kept: Listed = field(default_factory=lambda: Listed(0, 0))

    def set_text(self) -> list[int]:
        """The numbers of a set that is handed in."""
        _, _, *runs = self.kept.text()
        return [*super().set_text(), *runs]

    def handed(self) -> ParameterSet:
        """The set that an entry is handed, whether it is one or not."""
        s = super().handed()
        kept = [*s.inverses, s.total_inverse]
        for place, values in self.kept.runs:
            assert place + len(values) <= len(kept)
            kept[place : place + len(values)] = values
        *s.inverses, s.total_inverse = kept
        return s


@dataclass
class Validation:
    """A set to validate."""

    case: Case

    def line(self) -> list[int]:
        """The line that asks for this."""
        return self.case.line(VALIDATE)


@dataclass
class Entries(Calls):
    """A set, and what the entries of trees and of states are handed; `refusals` are the numbers
    with which those of Calls refuse it, and then permute, unpermute and compress."""

    def line(self, what: int = ENTRIES) -> list[int]:
        """The line that asks for this."""
        return [*super().line(what), *self.held("state"), *self.held("node")]


@dataclass
class DiagonalExchange:
    """A set, and the D that it is to have; the number that is to refuse it."""

    case: KeptCase
    diagonal: Listed
    refusal: int

    def line(self) -> list[int]:
        """The line that asks for this."""
        return [EXCHANGE_DIAGONAL, *self.case.set_text(), *self.diagonal.text()]


@dataclass
class HeightExchange:
    """A set, and the h that it is to have; the number that is to refuse it."""

    case: KeptCase
    height: int
    refusal: int

    def line(self) -> list[int]:
        """The line that asks for this."""
        return [EXCHANGE_HEIGHT, *self.case.set_text(), self.height]


Line = Validation | Entries | DiagonalExchange | HeightExchange


def words_of(case: Case) -> list[int]:
    """The words of D."""
    return case.diagonal.numbers(LIST_DIAGONAL_PLACES)


# Sets to validate.


def worked_sets() -> Iterator[Case]:
    """T, U, V, and T with D all p - 4."""
    yield from (case_t(), case_u(), case_v())
    yield faulted(case_t(), (9, all_of(P - 4, 4)))


def every_size() -> Iterator[Case]:
    """Every width and node size, with other heights and rounds."""
    for i, (t, l) in enumerate(SIZES):
        yield seeded(t, l, 7 * i % (highest(t, l) + 1), 2 + 2 * (i % 6), 9 * i % 65, 20 + 3 * i)


def one_word() -> Iterator[Case]:
    """D with one word at all places, and beside a zero."""
    for t in WIDTHS:
        for word in (1, 2, P - 1):
            yield altered(seeded(t, t // 2, 1, 2, 0, 1), all_of(word, t))
        yield altered(seeded(t, t // 2, 1, 2, 0, 1), all_of(1, t), zeros(t - 1))


# Kinds of D, each with the number that refuses it.
KINDS = [
    (0, diagonal_cases.no_zero),
    (0, diagonal_cases.one_zero),
    (0, diagonal_cases.one_zero_cancelling),
    (0, diagonal_cases.minus_ones),
    (9, diagonal_cases.no_zero_cancelling),
    (8, diagonal_cases.two_zeros),
]


def every_kind() -> Iterator[Case]:
    """Every kind of D at every width, a single zero at every place."""
    for t, (number, kind) in product(WIDTHS, KINDS):
        for turn in range(t if kind == diagonal_cases.one_zero else 2):
            case = seeded(t, t // 2, 1, 2, 0, 100 + 3 * turn)
            case = altered(case, *kind(words_of(case), turn))
            case.refusal = number
            yield case


def refused_sets() -> Iterator[Case]:
    """Each refusal at each width, in one way."""
    for i, base in enumerate(cases.BASES):
        for number, ways in faults(base).items():
            yield faulted(base, (number, turned(ways, i)))


def validations() -> Iterator[Line]:
    """Sets to validate."""
    for part in (worked_sets, every_size, one_word, every_kind, refused_sets):
        for case in part():
            yield Validation(case)


# Sets that are handed to entries.

BASES = [
    seeded(4, 2, 2, 2, 1, 40),
    seeded(8, 4, 1, 4, 2, 43),
    seeded(12, 3, 1, 2, 3, 46),
]

# The same with other words.
OTHERS = [seeded(*base.five(), 80 + 3 * i) for i, base in enumerate(BASES)]

# None of the eight entries that have numbers of their own refuses.
NONE = "0 0 0 0 0 0 0 0"


def keeping(case: Case, *changes: Fault) -> KeptCase:
    """The case with changes, and with its right kept values."""
    return altered(KeptCase(**vars(case)), *changes)


def asked(
    base: Case, case: KeptCase, *spoilt: CallFault, refusals: str = NONE, place: int = 0
) -> Entries:
    """The entries with a set, and with lists of the lengths that the base has, but for the
    faults. A set that is refused is refused by each."""
    counts = held_counts(*base.five()[:3]) | {"state": base.width, "node": base.node_size}
    numbers = [case.refusal] * 8 if case.refusal else [*map(int, refusals.split())]
    return Entries(case, held_lists(counts, [*spoilt]), place, numbers)


def keeps(inverses: Sequence[int], total: int) -> Fault:
    """All kept values written out."""

    def fault(case: Case) -> None:
        case.kept.write(0, *inverses)
        case.kept.write(TOTAL, total)

    return fault


def right_values(case: Case) -> tuple[tuple[int, ...], int]:
    """The inverses of D, and the inverse of 1 plus their sum."""
    return kept_values(tuple(words_of(case)))


def stated(case: KeptCase) -> KeptCase:
    """The case with its right kept values written out."""
    return altered(case, keeps(*right_values(case)))


def inverse_of(n: int) -> int:
    """The inverse of n modulo p, and 0 for 0."""
    return pow(n, -1, P) if n % P != 0 else 0


def right_sets() -> Iterator[Line]:
    """Every width and node size with its right kept values; without a zero in D, with one, and
    with one whose others cancel. Some are written out."""
    for i, (t, l) in enumerate(SIZES):
        base = seeded(t, l, i % 3 if t // l < 5 else 1, 2 + 2 * (i % 3), 1 + i % 4, 60 + 3 * i)
        others = cancelling_beside(words_of(base), (i + 1) % t, i % t)
        for j, changes in enumerate(([], [zeros(i % t)], others)):
            case = keeping(base, *changes)
            yield asked(base, stated(case) if i % 3 == j else case)
    for base in (case_t(), case_u(), case_v()):
        yield asked(base, stated(keeping(base)))


Way = Callable[[int], int]


def plus_one(n: int) -> int:
    """The next number."""
    return n + 1


def plus_p(n: int) -> int:
    """A number that is congruent, and no word."""
    return n + P


def to_zero(n: int) -> int:
    """0."""
    return 0


def each_changed(base: Case, case: KeptCase, *ways: Way) -> Iterator[Line]:
    """Each kept value changed in turn, to another number of 64 bits."""
    inverses, total = right_values(case)
    for place, value in [*enumerate(inverses), (TOTAL, total)]:
        for other in [way(value) for way in ways]:
            if other != value and other <= LARGEST:
                yield asked(base, faulted(case, (18, at("kept", place, other))))


def totalling(words: list[int], place: int, total: int) -> Fault:
    """At a place of D, the number for which this is the inverse of 1 plus the inverses of D."""
    others = sum(pow(d, -1, P) for d in words[:place] + words[place + 1 :])
    return at("diagonal", place, pow(pow(total, -1, P) - 1 - others, -1, P))


def changed_values() -> Iterator[Line]:
    """Each kept value of sets with drawn words in D and with ones, without a zero and with one."""
    for i, base in enumerate(BASES):
        t = base.width
        ones = all_of(1, t)
        yield from each_changed(base, keeping(base), plus_one, to_zero)
        yield from each_changed(base, keeping(base, zeros(i)), plus_one, plus_p)
        yield from each_changed(base, keeping(base, ones), plus_p)
        yield from each_changed(base, keeping(base, ones, zeros(t - 1)), to_zero, plus_p)
        small = keeping(base, totalling(words_of(base), i, 3))
        yield asked(base, small)
        yield asked(base, faulted(small, (18, at("kept", TOTAL, P + 3))))


def other_values() -> Iterator[Line]:
    """Kept values of another D, and values that are easily taken for the right ones."""
    for i, (base, other) in enumerate(zip(BASES, OTHERS)):
        case = keeping(base)
        inverses, total = right_values(base)
        others, other_total = right_values(other)
        added = 1 + sum(inverses)
        for wrong in (
            keeps(others, other_total),
            keeps(others, total),
            keeps(inverses[1:] + inverses[:1], total),
            keeps([0] * base.width, 0),
            at("kept", TOTAL, other_total),
            at("kept", TOTAL, added % P),
            at("kept", TOTAL, inverse_of(added - 1)),
            at("kept", TOTAL, P - total),
            at("kept", TOTAL, LARGEST),
            at("kept", 0, P - inverses[0]),
        ):
            yield asked(base, faulted(case, (18, wrong)))
        # With a zero: what the others' inverses would give, and an inverse for the zero.
        case = keeping(base, zeros(i))
        inverses, _ = right_values(case)
        naive = inverse_of(1 + sum(inverses))
        one_more = inverse_of(2 + sum(inverses))
        yield asked(base, faulted(case, (18, at("kept", TOTAL, naive))))
        yield asked(base, faulted(case, (18, at("kept", i, 1)), (18, at("kept", TOTAL, one_more))))


def values_beyond() -> Iterator[Line]:
    """Kept values beyond t: whatever they are, they change nothing, and the inverse of 1 plus all
    twelve is not the right one."""
    for i, base in enumerate(BASES[:2]):
        t = base.width
        for beyond in (1, P, LARGEST):
            for zero in ([], [zeros(i)]):
                yield asked(base, keeping(base, *zero, changed("beyond", beyond)))
        for place in range(t, TOTAL):
            value = (1, P - 1, P, LARGEST)[place % 4]
            yield asked(base, keeping(base, at("kept", place, value)))
        for beyond in (1, 5, P + 7):
            case = keeping(base, changed("beyond", beyond))
            inverses, _ = right_values(case)
            twelve = inverse_of(1 + sum(inverses) + (TOTAL - t) * beyond)
            yield asked(base, faulted(case, (18, at("kept", TOTAL, twelve))))
        case = keeping(base)
        inverses, total = right_values(case)
        drawn = [*inverses, *words_of(seeded(12, 6, 1, 2, 0, 95))[t:]]
        yield asked(base, altered(case, keeps(drawn, total)))
        yield asked(base, faulted(case, (18, keeps(drawn, inverse_of(1 + sum(drawn))))))


def earlier_refusals() -> Iterator[Line]:
    """Each refusal of a set with a kept value that is wrong too: the earlier one is answered."""
    for i, base in enumerate(BASES):
        for number, ways in set_faults(base).items():
            way = turned(ways, i)
            wrong = at("kept", (0, base.width - 1, TOTAL)[i], 1 + number)
            yield asked(base, faulted(keeping(base), (number, way), (18, wrong)))
    for number in (7, 8, 9):
        way = turned(set_faults(BASES[0])[number], 1)
        yield asked(BASES[0], faulted(stated(keeping(BASES[0])), (number, way)))


def diagonals_refused() -> Iterator[Line]:
    """D that is refused with 7, 8 or 9, with the values that come nearest to right ones."""
    for i, base in enumerate(BASES):
        t, words = base.width, words_of(base)
        singular = keeping(base, cancelling(words, t - 1))
        inverses = [inverse_of(d) for d in words_of(singular)]
        yield asked(base, faulted(singular, (9, keeps(inverses, i % 2))))
        # Two zeros, with the inverses of the others, and 0 where D has a zero.
        double = keeping(base, zeros(0, t - 1))
        inverses = [inverse_of(d) for d in words_of(double)]
        yield asked(base, faulted(double, (8, keeps(inverses, 0))))
        # p or p + 1 in D, with the kept values of 0 or 1.
        like = stated(keeping(base, at("diagonal", i, i % 2)))
        yield asked(base, faulted(like, (7, at("diagonal", i, P + i % 2))))


# All lists; each entry but sizes is handed one of them.
LISTS = ("leaves", "store", "siblings", "root", "leaf", "state", "node")
TENS = "10 10 10 10 10 10 10 10"


def later_faults(base: Case) -> Iterator[tuple[list[CallFault], str, int]]:
    """Lists that are too long or too short, p in them, a place too far: the faults, the numbers
    that refuse them, and the place. Of a store, the root reads the end, and the opening of place 0
    begins with the node after the first."""
    t, l = base.width, base.node_size
    _, store, _, places = tree_sizes(*base.five()[:3])
    spoilt = [(name, 0, 0) for name in LISTS if name != "store"]
    yield [(name, 1, None) for name in LISTS], TENS, 0
    yield [(name, -1, None) for name in LISTS], TENS, 0
    yield [("state", 1, None)], "0 0 0 0 0 10 10 10", 0
    yield [("node", t - l, None)], "0 0 0 0 0 0 0 10", 0
    yield [], "0 0 0 11 11 0 0 0", places
    yield [*spoilt, ("store", 0, store - 1)], "12 12 12 0 12 12 12 12", 0
    yield [("store", 0, l), ("state", 0, t - 1)], "0 0 0 12 0 12 12 12", 0
    yield [(name, 1, 0) for name in LISTS], TENS, places
    yield spoilt, "12 0 12 11 11 12 12 12", places


def later_refusals() -> Iterator[Line]:
    """10, 11 and 12 with right kept values, and with one that is wrong: then it is 18."""
    for i, base in enumerate(BASES):
        right = keeping(base)
        wrong = faulted(right, (18, at("kept", (TOTAL, 0, base.width - 1)[i], 3)))
        for spoilt, refusals, place in later_faults(base):
            yield asked(base, right, *spoilt, refusals=refusals, place=place)
            yield asked(base, wrong, *spoilt, place=place)


# Exchanges.


def exchanged(case: KeptCase, other: Case) -> Line:
    """The set with the D of another: the refusal of the first comes first."""
    return DiagonalExchange(case, other.diagonal, case.refusal or other.refusal)


def heightened(case: KeptCase, height: int) -> Line:
    """The set with another height, likewise."""
    refusal = case.refusal
    if refusal == 0 and height > highest(case.width, case.node_size):
        refusal = 5
    return HeightExchange(case, height, refusal)


def exchanges_done() -> Iterator[Line]:
    """D for another, without a zero and with one, and for itself; and with numbers in the unused
    places of the set, which the outcome has not."""
    for i, (base, other) in enumerate(zip(BASES, OTHERS)):
        t = base.width
        news = [other, altered(other, zeros(i)), altered(other, all_of(1, t)), base]
        for case in (keeping(base), keeping(base, zeros(t - 1))):
            for new in news:
                yield exchanged(case, new)
        for new, beyond in zip(news, (1, P, LARGEST)):
            yield exchanged(keeping(base, changed("beyond", beyond)), new)
            yield heightened(keeping(base, changed("beyond", beyond), zeros(0)), 2)


def heights_done() -> Iterator[Line]:
    """h for 0, for the largest that fits, and for itself; with one more it is refused."""
    for i, (t, l) in enumerate(SIZES):
        top = highest(t, l)
        base = seeded(t, l, i % (top + 1), 2, i % 3, 70 + 3 * i)
        case = keeping(base, zeros(i % t)) if i % 2 else keeping(base)
        for height in (0, top, top + 1, case.height):
            yield heightened(case, height)
    for base in BASES:
        for height in (33, 2**32, LARGEST):
            yield heightened(keeping(base), height)


def new_faults(other: Case) -> dict[int, list[Fault]]:
    """The ways in which each refusal can apply to the D that is exchanged for."""
    t, words = other.width, words_of(other)
    lengths = (1, -1, -t, LIST_DIAGONAL_PLACES - t, *(w - t for w in WIDTHS if w != t))
    return {
        6: [longer("diagonal", by) for by in lengths],
        7: [at("diagonal", place, n) for place, n in ((0, P), (t - 1, LARGEST), (1, P + 1))],
        8: [zeros(0, t - 1), zeros(1, 2), all_of(0, t)],
        9: [cancelling(words, t - 1), cancelling(words, 0)],
    }


def outcomes_refused() -> Iterator[Line]:
    """Each refusal of the outcome in each of its ways, and two at once."""
    for i, (base, other) in enumerate(zip(BASES, OTHERS)):
        right, ways = keeping(base), new_faults(other)
        for number in ways:
            for way in ways[number]:
                yield exchanged(right, faulted(other, (number, way)))
        for one, two in ((6, 7), (6, 8), (6, 9), (7, 8), (7, 9)):
            pair = (one, turned(ways[one], i)), (two, turned(ways[two], i))
            yield exchanged(right, faulted(other, *pair))


def handed_refused() -> Iterator[Line]:
    """Each refusal of the set that is handed in, with an outcome that is accepted and with one that
    isn't."""
    for i, (base, other) in enumerate(zip(BASES, OTHERS)):
        bad = [faulted(other, (n, turned(ways, i))) for n, ways in new_faults(other).items()]
        ways = set_faults(base)
        ways[18] = [at("kept", place, 2) for place in (0, base.width - 1, TOTAL)]
        for number in ways:
            case = faulted(keeping(base), (number, turned(ways[number], i)))
            yield exchanged(case, other)
            yield exchanged(case, bad[number % 4])
            yield heightened(case, (0, 33)[(i + number) % 2])


def kept_of_outcomes() -> Iterator[Line]:
    """18 for a set that has the kept values of the outcome; 18 before 6, 7, 8, 9 and 5."""
    for i, (base, other) in enumerate(zip(BASES, OTHERS)):
        case = faulted(keeping(base), (18, keeps(*right_values(other))))
        yield exchanged(case, other)
        wrong = faulted(keeping(base, zeros(0)), (18, at("kept", TOTAL, 1)))
        for number, ways in new_faults(other).items():
            yield exchanged(wrong, faulted(other, (number, turned(ways, i))))
        for height in (0, 33, LARGEST):
            yield heightened(wrong, height)
        nine = keeping(base, cancelling(words_of(base), 0))
        both = faulted(nine, (9, at("kept", TOTAL, 1)))
        yield exchanged(both, other)
        yield heightened(both, 0)


PARTS = [
    validations,
    right_sets,
    changed_values,
    other_values,
    values_beyond,
    earlier_refusals,
    diagonals_refused,
    later_refusals,
    exchanges_done,
    heights_done,
    outcomes_refused,
    handed_refused,
    kept_of_outcomes,
]


def all_lines() -> Iterator[Line]:
    """What every line asks for."""
    for part in PARTS:
        yield from part()


def lines() -> list[str]:
    """Every line of the input."""
    return counted([line.line() for line in all_lines()])


if __name__ == "__main__":
    for line in lines():
        print(line)
