"""Makes the input of the program `vectors`: the cases of its sections `sets` and `states`.

The input is decimal numbers below 2^64, each followed by one byte that is no
digit: a newline after a line's last number, a space after any other. The first
line is how many lines follow. Each of these is one of

    0 SECTION                         the header of section 0 (sets) or 1 (states)
    1 SET D C                         validate
    2 SET BEYOND D C STATE NODE       permute, unpermute and compress, in full
    3 SET BEYOND D C STATE NODE       permute, unpermute and compress, as digests

where SET is the five numbers t l h R_F R_P; D, C and STATE are lists; BEYOND is
the number that a set's places hold beyond D and beyond C; and NODE is the
length of the node's buffer for compress, each of whose numbers is 7 before. A
list is

    COUNT SEED RUNS {PLACE LENGTH VALUE ...} ...

and is made in a buffer of a fixed number of places: 16 for D and 224 for C in
validate, whose lists may be too long; 12 for D and 208 for C in a set that is
handed in; 16 for a state. Every place first holds BEYOND (0 in validate and in a
state); then the first COUNT places get the first COUNT drawn numbers of the
generator with that seed (generator.py), each modulo p; then each of the RUNS
runs writes its LENGTH values from its PLACE on. The list is the buffer's first
COUNT places; a set that is handed in holds the whole buffer. Its kept values are
those of the set, if validation accepts what it has in the used places, with
BEYOND in the places after the t-th; if it does not, the set is refused for that,
whatever they are. No COUNT and no NODE is above its buffer's places (16 for a
node); the program takes what is above as the number of places.

Each case knows the number that it is to be refused with, 0 for none; the
reference's own checks compare that with what the entries answer.
"""

from collections.abc import Callable, Iterator
from copy import deepcopy
from dataclasses import dataclass, field
from itertools import combinations, islice

import published
from field import P
from generator import drawn_numbers
from parameters import (
    CONSTANT_PLACES,
    DIAGONAL_PLACES,
    ParameterSet,
    constant_count,
    used_constants,
    used_diagonal,
    validate,
)

LIST_DIAGONAL_PLACES = 16
LIST_CONSTANT_PLACES = 224
STATE_PLACES = 16
LARGEST = 2**64 - 1

HEADER, VALIDATE, IN_FULL, DIGESTS = range(4)


@dataclass
class Listed:
    """A list as the input gives it; a run is a place and the values from it on."""

    count: int
    seed: int
    runs: list[tuple[int, list[int]]] = field(default_factory=list)

    def text(self) -> list[int]:
        """Its numbers in the input."""
        numbers = [self.count, self.seed, len(self.runs)]
        for place, values in self.runs:
            numbers += [place, len(values), *values]
        return numbers

    def buffer(self, places: int, beyond: int) -> list[int]:
        """The buffer that it is made in."""
        drawn = [x % P for x in islice(drawn_numbers(self.seed), self.count)]
        assert self.count <= places
        numbers = drawn + [beyond] * (places - self.count)
        for place, values in self.runs:
            assert place + len(values) <= places
            numbers[place : place + len(values)] = values
        return numbers

    def numbers(self, places: int) -> list[int]:
        """The list."""
        return self.buffer(places, 0)[: self.count]

    def write(self, place: int, *values: int) -> None:
        """One run more."""
        self.runs.append((place, list(values)))


@dataclass
class Case:
    """A line of the input but for its first number, and the number that is to refuse it."""

    width: int
    node_size: int
    height: int
    full_rounds: int
    partial_rounds: int
    diagonal: Listed
    constants: Listed
    state: Listed
    node: int
    beyond: int = 0
    refusal: int = 0

    def five(self) -> list[int]:
        """The five numbers."""
        return [
            self.width,
            self.node_size,
            self.height,
            self.full_rounds,
            self.partial_rounds,
        ]

    def line(self, what: int) -> list[int]:
        """The line that asks for this."""
        if what == VALIDATE:
            return [what, *self.five(), *self.diagonal.text(), *self.constants.text()]
        return [what, *self.set_text(), *self.state.text(), self.node]

    def set_text(self) -> list[int]:
        """The numbers of a set that is handed in."""
        both = self.diagonal.text() + self.constants.text()
        return [*self.five(), self.beyond, *both]

    def validated(self) -> tuple:
        """What validation is handed."""
        return (
            *self.five(),
            self.diagonal.numbers(LIST_DIAGONAL_PLACES),
            self.constants.numbers(LIST_CONSTANT_PLACES),
        )

    def handed(self) -> ParameterSet:
        """The set that an entry is handed, whether it is one or not."""
        diagonal = self.diagonal.buffer(DIAGONAL_PLACES, self.beyond)
        constants = self.constants.buffer(CONSTANT_PLACES, self.beyond)
        inverses = [self.beyond] * DIAGONAL_PLACES
        s = ParameterSet(*self.five(), diagonal, constants, inverses, 0)
        kind, accepted = validate(*self.five(), used_diagonal(s), used_constants(s))
        if kind == "set":
            s.inverses[: s.width] = accepted.inverses[: s.width]
            s.total_inverse = accepted.total_inverse
        return s


# Cases without a fault.


def seeded(
    width: int, node_size: int, height: int, full: int, partial: int, seed: int
) -> Case:
    """A case with drawn lists of the right lengths, from this seed and the two after it."""
    return Case(
        width,
        node_size,
        height,
        full,
        partial,
        Listed(width, seed),
        Listed(constant_count(width, full, partial), seed + 1),
        Listed(width, seed + 2),
        node_size,
    )


def written(case: Case, diagonal: list[int], constants: list[int], state: list[int]) -> Case:
    """The case with lists that are written out."""
    for listed, values in (
        (case.diagonal, diagonal),
        (case.constants, constants),
        (case.state, state),
    ):
        assert listed.count == len(values)
        listed.seed = 0
        listed.write(0, *values)
    return case


T_CONSTANTS = [0, 0, 0, 0, P - 505316, P - 410806, P - 127289, P - 94519]
U_CONSTANTS = [0, 0, 0, 0] + [P - 505316]
U_CONSTANTS += [P - 632615, P - 1454227, P - 1014482, P - 1010691]
V_CONSTANTS = [0, 0, 0, 0] + [P - 505316]
V_CONSTANTS += [P - 632614, P - 1043421, P - 887193, P - 916172]


def case_t() -> Case:
    """The set T (Rules 9) and the state of its worked case."""
    return written(seeded(4, 2, 1, 2, 0, 0), [1, 2, 3, 4], T_CONSTANTS, [1, 0, 0, 0])


def case_u() -> Case:
    """The set U (Rules 9) and the state of its worked case."""
    return written(seeded(4, 2, 1, 2, 1, 0), [1, 2, 3, 4], U_CONSTANTS, [1, 0, 0, 0])


def case_v() -> Case:
    """The set V (Rules 9), which has a zero in D, and the state of its worked case."""
    return written(seeded(4, 2, 1, 2, 1, 0), [0, 1, 2, 3], V_CONSTANTS, [1, 0, 0, 0])


# Every width with each of its node sizes.
SIZES = [(t, l) for t in (4, 8, 12) for l in range(1, t // 2 + 1) if t % l == 0]


def highest(width: int, node_size: int) -> int:
    """The largest height that fits."""
    return max(h for h in range(33) if (width // node_size) ** h <= 2**32)


# Faults. Each is a change of a case, after which its refusal applies, and higher
# ones where that can't be helped.

Fault = Callable[[Case], None]


def changed(name: str, value: int) -> Fault:
    """One of the five numbers, with the lists left as they are."""

    def fault(case: Case) -> None:
        setattr(case, name, value)

    return fault


def refitted(name: str, value: int) -> Fault:
    """One of the rounds' numbers, and a C of the length that it asks for, if it fits."""

    def fault(case: Case) -> None:
        setattr(case, name, value)
        count = constant_count(case.width, case.full_rounds, case.partial_rounds)
        if count < LIST_CONSTANT_PLACES:
            case.constants.count = count

    return fault


def longer(name: str, by: int) -> Fault:
    """A list longer by some numbers, or shorter."""

    def fault(case: Case) -> None:
        listed = getattr(case, name)
        listed.count = max(listed.count + by, 0)

    return fault


def at(name: str, place: int, value: int) -> Fault:
    """A number of a list."""

    def fault(case: Case) -> None:
        getattr(case, name).write(place, value)

    return fault


def all_of(value: int, width: int) -> Fault:
    """Every number of D."""

    def fault(case: Case) -> None:
        case.diagonal.write(0, *[value] * width)

    return fault


def zeros(*places: int) -> Fault:
    """0 at places of D. One is no fault."""

    def fault(case: Case) -> None:
        for place in places:
            case.diagonal.write(place, 0)

    return fault


def cancelling(words: list[int], place: int) -> Fault:
    """At a place of D, the number for which 1 and the inverses of D's words add up to 0, zeros left
    out: without a zero D is refused with 9, and with one it is accepted."""
    others = words[:place] + words[place + 1 :]
    total = (1 + sum(pow(d, -1, P) for d in others if d != 0)) % P
    return at("diagonal", place, pow(-total, -1, P))


def cancelling_beside(words: list[int], place: int, *empty: int) -> list[Fault]:
    """0 at some places of D, and at another the number for which the others cancel."""
    left = [0 if i in empty else d for i, d in enumerate(words)]
    return [zeros(*empty), cancelling(left, place)]


def faults(case: Case) -> dict[int, list[Fault]]:
    """The ways in which each refusal can apply to a case that has no fault."""
    t, l = case.width, case.node_size
    words = case.diagonal.numbers(LIST_DIAGONAL_PLACES)
    last_d, last_c = t - 1, case.constants.count - 1
    ways = {
        1: [changed("width", n) for n in (5, 0, 16, LARGEST)],
        2: [changed("node_size", n) for n in (0, 5, t, 2 * t, LARGEST)],
        3: [refitted("full_rounds", n) for n in (1, 3, 11, 0, 13, 14)],
        4: [refitted("partial_rounds", 65), changed("partial_rounds", LARGEST)],
        5: [changed("height", n) for n in (33, highest(t, l) + 1, LARGEST)],
        6: [longer(name, by) for by in (-1, 1) for name in ("diagonal", "constants")],
        7: [at("diagonal", 0, P), at("constants", last_c, P)],
        8: [zeros(0, last_d), zeros(0, 1), zeros(last_d - 1, last_d), all_of(0, t)],
        9: [cancelling(words, last_d), all_of(P - t, t), cancelling(words, 0)],
    }
    ways[3] += [changed("full_rounds", LARGEST)]
    ways[6] += [longer("diagonal", -t), longer("constants", -last_c - 1)]
    ways[7] += [at("diagonal", last_d, LARGEST), at("constants", 0, LARGEST)]
    ways[7] += [at("diagonal", last_d, P), at("constants", 0, P)]
    return ways


# The order in which faults are made: the numbers, then the words, an earlier
# refusal's over a later one's, then the lengths.
ORDER = [1, 2, 3, 4, 5, 18, 9, 8, 7, 6, 12, 10]

# The order in which refusals are tested (Rules 8.1).
TESTED = [1, 2, 3, 4, 5, 6, 7, 8, 9, 18, 10, 11, 12, 16, 17, 13, 15, 14]


def altered(case: Case, *changes: Fault) -> Case:
    """The case with changes that are no faults."""
    case = deepcopy(case)
    for change in changes:
        change(case)
    return case


def faulted(case: Case, *refusals_and_faults: tuple[int, Fault]) -> Case:
    """The case with these faults; the first that is tested is to refuse it."""
    ordered = sorted(refusals_and_faults, key=lambda pair: ORDER.index(pair[0]))
    case = altered(case, *(fault for _, fault in ordered))
    case.refusal = min((number for number, _ in refusals_and_faults), key=TESTED.index)
    return case


def turned(ways: list[Fault], by: int) -> Fault:
    """One of the ways, another for another number."""
    return ways[by % len(ways)]


# The section `sets`.


def worked_sets() -> Iterator[Case]:
    """T, U, V, and T with D all p - 4."""
    yield case_t()
    yield case_u()
    yield case_v()
    yield faulted(case_t(), (9, all_of(P - 4, 4)))


def heights() -> Iterator[Case]:
    """For each width and node size, height 0, the largest that fits, and one more."""
    for i, (t, l) in enumerate(SIZES):
        top = highest(t, l)
        for h in (0, top, top + 1):
            case = seeded(t, l, h, 2, 0, i)
            case.refusal = 5 if h > top else 0
            yield case


def widths_in_full() -> Iterator[Case]:
    """Widths that are none, all else as such a width asks."""
    for t, l in ((0, 1), (1, 1), (2, 1), (3, 1), (5, 1), (6, 2), (16, 4)):
        case = seeded(t, l, 1, 2, 3, 40)
        case.refusal = 1
        yield case


def accepted_sets() -> Iterator[Case]:
    """Every width and node size, with each number of full rounds."""
    for i, (t, l) in enumerate(SIZES):
        for j, full in enumerate(range(2, 13, 2)):
            number = 6 * i + j
            yield seeded(t, l, number % (highest(t, l) + 1), full, number * 13 % 65, 100 + 3 * number)
    yield seeded(12, 1, 8, 12, 64, 90)


def accepted_edges() -> Iterator[Case]:
    """p - 1 fits in D and in C, and 0 in C; D all p - 4 for another width; D all p - 1."""
    for t, l in ((4, 1), (8, 2), (12, 6)):
        case = seeded(t, l, 1, 2, 1, 50)
        last_c = case.constants.count - 1
        for change in (
            at("diagonal", 0, P - 1),
            at("diagonal", t - 1, P - 1),
            at("constants", 0, P - 1),
            at("constants", last_c, P - 1),
            at("constants", 0, 0),
            at("constants", last_c, 0),
            all_of(P - 1, t),
            all_of(P - 2 * t, t),
        ):
            yield altered(case, change)


def zeros_in_sets() -> Iterator[Case]:
    """Each width with one zero in D, at each place, and with two, at all pairs of places."""
    for t in (4, 8, 12):
        case = seeded(t, t // 2, 0, 2, 0, 1)
        for place in range(t):
            yield altered(case, zeros(place))
        for pair in combinations(range(t), 2):
            yield faulted(case, (8, zeros(*pair)))


BASES = [
    seeded(4, 2, 3, 4, 5, 60),
    seeded(8, 2, 2, 2, 7, 63),
    seeded(12, 3, 4, 12, 64, 66),
]


def single_faults() -> Iterator[Case]:
    """Each refusal alone, in each of its ways."""
    for base in BASES:
        for number, ways in faults(base).items():
            for fault in ways:
                yield faulted(base, (number, fault))


def double_faults() -> Iterator[Case]:
    """Every two refusals at once, in one way for each base."""
    for number, base in enumerate(BASES):
        ways = faults(base)
        for i, j in combinations(range(1, 10), 2):
            if (i, j) != (8, 9):
                yield faulted(
                    base, (i, turned(ways[i], number)), (j, turned(ways[j], i + number))
                )


def entangled_faults() -> Iterator[Case]:
    """7 to 9, and D that is accepted, where one is easily taken for another."""
    for base in BASES:
        t, words = base.width, base.diagonal.numbers(LIST_DIAGONAL_PLACES)
        # One zero, and the inverses of the others cancel: accepted.
        for place in (0, 1, t - 1):
            yield altered(base, *cancelling_beside(words, 2, place))
        # Two zeros, and the inverses of the others cancel.
        both = cancelling_beside(words, 2, 0, t - 1)
        yield faulted(base, *((8, fault) for fault in both))
        # p + 1 for a 1, and as a 1 it would cancel with the others.
        ones = [1] + words[1:]
        yield faulted(base, (9, cancelling(ones, t - 1)), (7, at("diagonal", 0, P + 1)))
        # 0 and p both in D: with one zero, and with two.
        yield faulted(altered(base, zeros(0)), (7, at("diagonal", 1, P)))
        yield faulted(base, (7, at("diagonal", 1, P)), (8, zeros(0, t - 1)))
        # D too long, and what is too much is p; or it is a second zero.
        for zero, more in (([], P), ([0], 0)):
            long = faulted(altered(base, zeros(*zero)), (6, longer("diagonal", 1)))
            long.diagonal.write(t, more)
            yield long


def sets_cases() -> Iterator[tuple[int, Case]]:
    """The section `sets`."""
    for part in (
        worked_sets,
        heights,
        widths_in_full,
        accepted_sets,
        accepted_edges,
        zeros_in_sets,
        single_faults,
        double_faults,
        entangled_faults,
    ):
        for case in part():
            yield (VALIDATE, case)


# The section `states`.


def published_states() -> Iterator[tuple[int, Case]]:
    """The published instances on the states with known answers."""
    for instance in published.INSTANCES:
        t = instance["width"]
        for state, _ in instance["known_answers"]:
            case = seeded(t, t // 4, 2, instance["full_rounds"], instance["partial_rounds"], 0)
            yield (IN_FULL, written(case, instance["diagonal"], instance["constants"], state))


def worked_states() -> Iterator[tuple[int, Case]]:
    """T, U and V on (1,0,0,0)."""
    yield (IN_FULL, case_t())
    yield (IN_FULL, case_u())
    yield (IN_FULL, case_v())


def states_in_full() -> Iterator[tuple[int, Case]]:
    """Each width and node size on a drawn state; each width on states of 0 and of p - 1."""
    for i, (t, l) in enumerate(SIZES):
        yield (IN_FULL, seeded(t, l, 1, 8, 9, 500 + 3 * i))
    for t in (4, 8, 12):
        for value in (0, P - 1):
            case = seeded(t, t // 4, 1, 6, 5, 540 + t)
            case.state.write(0, *[value] * t)
            yield (IN_FULL, case)


def seeded_states() -> Iterator[tuple[int, Case]]:
    """Every number of full rounds with every number of partial rounds."""
    for i in range(6 * 65):
        t, l = SIZES[(i + i // 6) % len(SIZES)]
        h = i % (highest(t, l) + 1)
        yield (DIGESTS, seeded(t, l, h, 2 * (i % 6 + 1), i // 6, 3 * i))


def unused_places() -> Iterator[tuple[int, Case]]:
    """What a set holds in places that aren't used changes nothing."""
    for i, (t, l) in enumerate(SIZES):
        for beyond in (0, P, LARGEST):
            case = seeded(t, l, 1, 2 * (i % 5 + 1), 7 * i, 560 + 3 * i)
            case.beyond = beyond
            yield (DIGESTS, case)


def zeros_in_states() -> Iterator[tuple[int, Case]]:
    """Each width with a zero at each place of D; at some the others cancel beside it. The places
    beyond D hold zeros too, or p."""
    for t, l in ((4, 2), (8, 2), (12, 4)):
        for place in range(t):
            base = seeded(t, l, 1, 2, 1 + place % 3, 80 + place)
            words = base.diagonal.numbers(LIST_DIAGONAL_PLACES)
            yield (DIGESTS, altered(base, zeros(place)))
            if place in (0, t // 2, t - 1):
                case = altered(base, *cancelling_beside(words, (place + 1) % t, place))
                case.beyond = P if place else 0
                yield (IN_FULL, case)
                yield (DIGESTS, case)


STATE_BASES = [
    seeded(4, 2, 3, 4, 5, 70),
    seeded(8, 4, 2, 2, 7, 73),
    seeded(12, 3, 4, 6, 10, 76),
]


def state_faults(case: Case) -> dict[int, list[Fault]]:
    """The ways in which 10 and 12 can apply to a state."""
    t = case.width
    return {
        10: [longer("state", by) for by in (1, STATE_PLACES - t, -1, -t)],
        12: [at("state", p, n) for p in (0, t - 1) for n in (P, LARGEST)],
    }


def set_faults(case: Case) -> dict[int, list[Fault]]:
    """The ways in which each refusal can apply to a set that is handed in: all but 6."""
    return {number: ways for number, ways in faults(case).items() if number != 6}


def refused_states() -> Iterator[Case]:
    """Each refusal alone, and two at once."""
    for number, base in enumerate(STATE_BASES):
        ways = set_faults(base) | state_faults(base)
        for i in ways:
            for fault in ways[i]:
                yield faulted(base, (i, fault))
        for i in ways:
            for j in (10, 12):
                if i < j:
                    yield faulted(
                        base, (i, turned(ways[i], number)), (j, turned(ways[j], i + number))
                    )


def refused_nodes() -> Iterator[Case]:
    """A node of another length than l: compress alone is refused. With a fault more."""
    for base in STATE_BASES:
        for node in (0, base.node_size - 1, base.node_size + 1, STATE_PLACES):
            case = deepcopy(base)
            case.node = node
            yield case
        for number, fault in ((9, all_of(P - base.width, base.width)), (12, at("state", 1, P))):
            case = faulted(base, (number, fault))
            case.node = base.node_size + 1
            yield case


def states_cases() -> Iterator[tuple[int, Case]]:
    """The section `states`."""
    yield from published_states()
    yield from worked_states()
    yield from states_in_full()
    yield from seeded_states()
    yield from unused_places()
    yield from zeros_in_states()
    for part in (refused_states, refused_nodes):
        for case in part():
            yield (DIGESTS, case)


def counted(made: list[list[int]]) -> list[str]:
    """The lines of an input: how many follow, then each of them."""
    return [" ".join(map(str, line)) for line in [[len(made)], *made]]


def lines(sections: list[Callable[[], Iterator[tuple]]]) -> list[str]:
    """Every line of a program's input."""
    made = []
    for number, section in enumerate(sections):
        made.append([HEADER, number])
        made += [case.line(what) for what, case in section()]
    return counted(made)


SECTIONS = [sets_cases, states_cases]

if __name__ == "__main__":
    for line in lines(SECTIONS):
        print(line)
