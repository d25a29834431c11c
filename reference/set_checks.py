"""Checks of the kept values of sets, of refusal 18, and of the exchanges of D and of h
(docs/RULES.md, section 2), which selftest.py runs.

The groups yield checks (name, got, expected), as those of selftest.py do.
"""

import random
from collections.abc import Iterator
from copy import deepcopy
from dataclasses import replace

import files
import merkle
import poseidon2
import set_cases
import set_vectors
import tree_vectors
from cases import LARGEST, LIST_DIAGONAL_PLACES, SIZES, case_t, case_u, case_v, highest
from field import P, is_word
from parameters import (
    ParameterSet,
    all_numbers,
    constant_count,
    exchange_diagonal,
    exchange_height,
    five_numbers,
    refusal_of_set,
    used_constants,
    used_diagonal,
    validate,
)

Check = tuple[str, object, object]

WIDTHS = (4, 8, 12)


def seeded_diagonal(rng: random.Random, width: int, zero: int | None) -> list[int]:
    """Drawn words other than 0, and 0 at a place."""
    return [0 if place == zero else rng.randrange(1, P) for place in range(width)]


def seeded_set(
    rng: random.Random, width: int, node_size: int, height: int, zero: int | None
) -> ParameterSet:
    """A set with drawn words and few rounds."""
    constants = [rng.randrange(P) for _ in range(constant_count(width, 2, 1))]
    diagonal = seeded_diagonal(rng, width, zero)
    kind, s = validate(width, node_size, height, 2, 1, diagonal, constants)
    assert kind == "set"
    return s


def with_junk(rng: random.Random, s: ParameterSet) -> ParameterSet:
    """The set with any numbers in the places that aren't used."""
    s = deepcopy(s)
    for numbers, used in (
        (s.diagonal, s.width),
        (s.constants, len(used_constants(s))),
        (s.inverses, s.width),
    ):
        numbers[used:] = [rng.choice((0, 1, P, LARGEST)) for _ in numbers[used:]]
    return s


# The kept values of T, and the inverses that V has of these (Rules 9).
T_INVERSES = [1, 9223372034707292161, 12297829379609722881, 13835058052060938241]
T_TOTAL = 17449622768365147331


def worked_kept() -> Iterator[Check]:
    """The worked cases of kept values. They can be followed by hand: as fractions, 1 plus the
    inverses of 1, 2, 3, 4 is 37/12."""
    half, third, quarter = (P + 1) // 2, (2 * P + 1) // 3, (3 * P + 1) // 4
    yield "a half, a third and a quarter", T_INVERSES, [1, half, third, quarter]
    yield "the inverse of 37/12", T_TOTAL * 37 % P, 12
    for name, case in (("T", case_t()), ("U", case_u())):
        s = case.handed()
        yield f"inverses of {name}", s.inverses, T_INVERSES + [0] * 8
        yield f"the inverse of 1 plus their sum, of {name}", s.total_inverse, T_TOTAL
        for place in range(12):
            s = case.handed()
            s.inverses[place] += 1
            wanted = 18 if place < 4 else None
            yield f"{name} with another number at {place}", refusal_of_set(s), wanted
        yield f"{name} with another sum", refusal_of_set(replace(s, total_inverse=1)), 18
    s = case_v().handed()
    yield "inverses of V", s.inverses, [0] + T_INVERSES[:3] + [0] * 8
    yield "the inverse of 1 plus their sum, of V", s.total_inverse, 0
    for width in WIDTHS:
        _, s = validate(width, 1, 0, 2, 0, [1] * width, [0] * 2 * width)
        yield f"t={width}, D all 1", s.inverses, [1] * width + [0] * (12 - width)
        yield f"t={width}, D all 1, sum", s.total_inverse * (width + 1) % P, 1
        _, s = validate(width, 1, 0, 2, 0, [P - 1] * width, [0] * 2 * width)
        yield f"t={width}, D all p - 1", s.inverses, [P - 1] * width + [0] * (12 - width)
        yield f"t={width}, D all p - 1, sum", s.total_inverse * (width - 1) % P, P - 1


def undone_by_kept(s: ParameterSet, image: list[int]) -> list[int]:
    """M_I undone with the kept values alone, without an inversion (Rules 7.3)."""
    inverses = s.inverses[: s.width]
    if 0 in inverses:
        place = inverses.index(0)
        words = [e * (y - image[place]) % P for e, y in zip(inverses, image)]
        words[place] = (image[place] - sum(words)) % P
        return words
    total = s.total_inverse * sum(e * y for e, y in zip(inverses, image))
    return [e * (y - total) % P for e, y in zip(inverses, image)]


def kept_values() -> Iterator[Check]:
    """Multiplied back, each inverse gives 1 with its word, and the last one gives 1 with 1 plus
    the others; where D has a zero they are 0. All are words, and those beyond t are 0. M_I is
    undone by them."""
    rng = random.Random(40)
    for turn in range(120):
        for width in WIDTHS:
            for zero in (None, turn % width):
                s = seeded_set(rng, width, 1, 0, zero)
                name = f"{used_diagonal(s)}"
                products = [d * e % P for d, e in zip(s.diagonal, s.inverses)]
                wanted = [int(place < width and place != zero) for place in range(12)]
                yield name, products, wanted
                yield name + ", sum", s.total_inverse * (1 + sum(s.inverses)) % P, int(zero is None)
                kept = [*s.inverses, s.total_inverse]
                yield name + ", zero", zero is None or (kept[zero], kept[12]) == (0, 0), True
                yield name + ", words", all(map(is_word, kept)), True
                state = [rng.randrange(P) for _ in range(width)]
                image = poseidon2.internal_layer(used_diagonal(s), state)
                yield name + ", undone", undone_by_kept(s, image), state


def others(number: int) -> list[int]:
    """Other numbers of 64 bits in the place of a kept value."""
    near = (number + 1, number - 1, 0, 1, number + P, P - number, P, LARGEST)
    return sorted({n for n in near if 0 <= n <= LARGEST} - {number})


def kept_changed() -> Iterator[Check]:
    """Any other number in the place of one kept value gives 18, and so does another word in D.
    The places that aren't used, C and the heights that fit have no part in it."""
    rng = random.Random(41)
    for width in WIDTHS:
        for zero in (None, width - 1):
            right = seeded_set(rng, width, 1, 1, zero)
            for n, s in enumerate((right, with_junk(rng, right))):
                name = f"t={width}, zero {zero}, {n}"
                yield name, refusal_of_set(s), None
                for place in range(12):
                    for other in others(s.inverses[place]):
                        kept = [*s.inverses[:place], other, *s.inverses[place + 1 :]]
                        got = refusal_of_set(replace(s, inverses=kept))
                        yield f"{name}, {place} to {other}", got, 18 if place < width else None
                for other in others(s.total_inverse):
                    got = refusal_of_set(replace(s, total_inverse=other))
                    yield f"{name}, total to {other}", got, 18
                turned = [*s.inverses[1:width], s.inverses[0], *s.inverses[width:]]
                yield f"{name}, turned", refusal_of_set(replace(s, inverses=turned)), 18
                yield from unkept_changed(rng, name, s)


def unkept_changed(rng: random.Random, name: str, s: ParameterSet) -> Iterator[Check]:
    """Each number of D and of C for another word, and the height for each that fits."""
    for place in range(12):
        drawn = [*s.diagonal[:place], rng.randrange(1, P), *s.diagonal[place + 1 :]]
        wanted = 18 if place < s.width else None
        yield f"{name}, D_{place}", refusal_of_set(replace(s, diagonal=drawn)), wanted
    for place in range(0, 208, 5):
        drawn = [*s.constants[:place], rng.randrange(P), *s.constants[place + 1 :]]
        yield f"{name}, C_{place}", refusal_of_set(replace(s, constants=drawn)), None
    for height in range(highest(s.width, s.node_size) + 1):
        yield f"{name}, h={height}", refusal_of_set(replace(s, height=height)), None


def beyond_the_width() -> Iterator[Check]:
    """The inverse of 1 plus all twelve numbers is wrong, if those beyond t add up to something."""
    rng = random.Random(42)
    for width in (4, 8):
        for beyond in (1, 5, P - 1, LARGEST):
            s = seeded_set(rng, width, 1, 1, None)
            s.inverses[width:] = [beyond] * (12 - width)
            yield f"t={width}, {beyond} beyond", refusal_of_set(s), None
            s.total_inverse = pow(1 + sum(s.inverses), -1, P)
            yield f"t={width}, {beyond} beyond, all summed", refusal_of_set(s), 18


def entries_of(s: ParameterSet, more: int, word: int, place: int) -> dict[str, tuple]:
    """What every entry that takes a set answers to lists of one word, longer than they should be
    by so many numbers; their lengths are those of a set with t = 4, l = 2 and h = 1."""
    node, state, leaves = [word] * (2 + more), [word] * (4 + more), [word] * (4 + more)
    store, siblings = [word] * (6 + more), [word] * (2 + more)
    records = [(place, [word] * 6)]
    offers = node, siblings, node, siblings
    return {
        "permute": poseidon2.permute(s, state),
        "unpermute": poseidon2.unpermute(s, state),
        "compress": poseidon2.compress(s, state, len(node)),
        "sizes": merkle.sizes(s),
        "build": merkle.build(s, leaves, store),
        "root": merkle.root(s, store),
        "storeless_root": merkle.storeless_root(s, leaves),
        "open": merkle.opening(s, store, place, siblings),
        "verify": merkle.verify(s, node, place, node, siblings),
        "read_level": merkle.read_opening(s, siblings, place),
        "replace": merkle.replace(s, store, place, node),
        "push": merkle.push(s, store, records),
        "extract": merkle.extract(s, node, place, *offers, list(state), list(state)),
        "leaf_of_file": files.leaf_of_file(s, b"", len(node)),
        "exchange_diagonal": exchange_diagonal(s, state),
        "exchange_height": exchange_height(s, place),
    }


# What entries_of gives where the set is right, for lists that are too long, for p in lists of their
# lengths, and for a place too far; for the rest it is not refused, or with another number.
LATER = [
    (10, (1, P, 9), {"sizes": 0, "exchange_diagonal": 6, "exchange_height": 0}),
    (11, (0, P, 9), {"open": 11, "verify": 11, "read_level": 11, "replace": 11, "push": 11}),
    (12, (0, P, 0), {"permute": 12, "unpermute": 12, "verify": 12, "exchange_diagonal": 7}),
]


def kept_in_entries() -> Iterator[Check]:
    """Every entry that takes a set refuses a wrong kept value with 18: after 1 to 9 and before
    whatever else is wrong."""
    right = case_t().handed()
    for number, handed, numbers in LATER:
        answers = entries_of(right, *handed)
        for name, wanted in numbers.items():
            kind, got = answers[name]
            yield f"{name}, right, {number}", got if kind == "refused" else 0, wanted
        for changes in ({"total_inverse": 1}, {"inverses": [2] * 12}):
            s = replace(right, **changes)
            for name, answer in entries_of(s, *handed).items():
                yield f"{name}, {changes}, {number}", answer, ("refused", 18)
            for earlier, more in (
                (1, {"width": 6}),
                (5, {"height": 33}),
                (7, {"diagonal": [P + 1, 2, 3, 4] + [0] * 8}),
                (8, {"diagonal": [0, 0, 3, 4] + [0] * 8}),
                (9, {"diagonal": [P - 4] * 12}),
            ):
                for name, answer in entries_of(replace(s, **more), *handed).items():
                    yield f"{name}, {changes}, {more}, {number}", answer, ("refused", earlier)


def exchanges() -> Iterator[Check]:
    """An exchange gives what validation gives for the outcome, whatever the unused places hold,
    and leaves what it was handed; there and back it gives the set again."""
    rng = random.Random(43)
    for i, (t, l) in enumerate(SIZES):
        for zero, new_zero in ((None, None), (None, i % t), (i % t, None), (0, t - 1)):
            s = seeded_set(rng, t, l, i % (highest(t, l) + 1), zero)
            name = f"t={t}, l={l}, zero {zero} for {new_zero}"
            junk = with_junk(rng, s)
            before = deepcopy(junk)
            diagonal = seeded_diagonal(rng, t, new_zero)
            wanted = validate(*five_numbers(s), diagonal, used_constants(s))
            yield name, exchange_diagonal(junk, diagonal), wanted
            yield name + ", accepted", wanted[0], "set"
            yield name + ", back", exchange_diagonal(wanted[1], used_diagonal(s)), ("set", s)
            yield name + ", itself", exchange_diagonal(junk, used_diagonal(s)), ("set", s)
            for height in range(highest(t, l) + 1):
                numbers = t, l, height, 2, 1
                outcome = validate(*numbers, used_diagonal(s), used_constants(s))
                yield f"{name}, h={height}", exchange_height(junk, height), outcome
                got = exchange_height(outcome[1], s.height)
                yield f"{name}, h={height}, back", got, ("set", s)
            yield name + ", left", junk, before


def exchanges_refused() -> Iterator[Check]:
    """6 for another length, 7 to 9 for the words, 5 for the height; 18 before all of these."""
    rng = random.Random(44)
    for t, l in SIZES:
        s = seeded_set(rng, t, l, 1, None)
        wrong = replace(s, total_inverse=(s.total_inverse + 1) % P)
        words = seeded_diagonal(rng, t, None)
        cases = [(6, (words * 2)[:count]) for count in {*range(17)} - {t}]
        cases += [(6, [P] * (t + 1)), (6, [0] * (t - 1)), (7, [P] + [0] * (t - 1))]
        cases += [(7, words[:-1] + [LARGEST]), (8, [0, 0, *words[2:]]), (9, [P - t] * t)]
        for number, diagonal in cases:
            name = f"t={t}, l={l}, {number} for {diagonal}"
            yield name, exchange_diagonal(s, diagonal), ("refused", number)
            yield name + ", wrong", exchange_diagonal(wrong, diagonal), ("refused", 18)
        for height in (highest(t, l) + 1, 33, LARGEST):
            name = f"t={t}, l={l}, h={height}"
            yield name, exchange_height(s, height), ("refused", 5)
            yield name + ", wrong", exchange_height(wrong, height), ("refused", 18)
            high = replace(s, height=height)
            yield name + " before", exchange_height(high, 1), ("refused", 5)
            yield name + " before, D", exchange_diagonal(high, words), ("refused", 5)
        singular = replace(s, diagonal=[P - t] * 12)
        yield f"t={t}, l={l}, 9 before", exchange_diagonal(singular, words), ("refused", 9)
        _, other = exchange_diagonal(s, words)
        swapped = replace(s, inverses=other.inverses, total_inverse=other.total_inverse)
        got = exchange_diagonal(swapped, words)
        yield f"t={t}, l={l}, kept values of the outcome", got, ("refused", 18)


def refusals_of(line: set_cases.Line) -> list[int]:
    """The numbers that a line of the input is refused with, 0 for none."""
    if isinstance(line, set_cases.Entries):
        called, last = tree_vectors.calls_of(line)
        numbers = [number for number, _ in called]
        numbers.append(last[1])
        return [number or 0 for number in numbers + [n for n, _ in set_vectors.states_of(line)]]
    if isinstance(line, set_cases.Validation):
        kind, answer = validate(*line.case.validated())
    elif isinstance(line, set_cases.DiagonalExchange):
        diagonal = line.diagonal.numbers(LIST_DIAGONAL_PLACES)
        kind, answer = exchange_diagonal(line.case.handed(), diagonal)
    else:
        kind, answer = exchange_height(line.case.handed(), line.height)
    return [answer if kind == "refused" else 0]


def wanted_of(line: set_cases.Line) -> list[int]:
    """The numbers that it is made for."""
    if isinstance(line, set_cases.Entries):
        return line.refusals
    return [line.case.refusal if isinstance(line, set_cases.Validation) else line.refusal]


def set_vectors_cases() -> Iterator[Check]:
    """Each line is refused with the numbers that it is made for, and sizes with the set's. What a
    set has in its unused places reaches no outcome. All of the input fits."""
    for line in set_cases.all_lines():
        yield f"{line}", refusals_of(line), wanted_of(line)
        if isinstance(line, set_cases.Entries):
            kind, number = merkle.sizes(line.case.handed())
            yield f"sizes of {line}", number if kind == "refused" else 0, line.case.refusal
    size = sum(len(line) + 1 for line in set_cases.lines())
    yield "bytes of input", size <= 60000, True


GROUPS = [
    ("worked: kept values", worked_kept),
    ("kept values", kept_values),
    ("kept values changed", kept_changed),
    ("kept values beyond t", beyond_the_width),
    ("18 in every entry", kept_in_entries),
    ("exchanges", exchanges),
    ("exchanges refused", exchanges_refused),
    ("set_vectors' cases", set_vectors_cases),
]
