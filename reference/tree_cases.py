"""Makes the input of the program `tree_vectors`: the cases of its three sections.

The input has the form that cases.py describes, with its sets and lists. Each
line is one of

    0 SECTION                                  a section's header
    1 SET BEYOND D C LEAVES TREE               a tree and its places, in full
    2 SET BEYOND D C LEAVES TREE               a tree and its places, as digests
    3 SET BEYOND D C HELD PLACE                a call of each entry of a tree
    4 SET BEYOND D C LEAVES STORE CALLS CALL ...       a tree and its replacements
    5 SET BEYOND D C ROOT PLACE OFFER OFFER ROW ROW    an extraction

where the sections are 0 (trees), 1 (replacements) and 2 (extractions), and
LEAVES and ROOT are lists. TREE is the three numbers STORE SIBLINGS PLACES, the
length of the store, that of the siblings, and the number of places that are
asked for, 0 the first. HELD is two numbers COUNT FAULT for each of leaves,
store, siblings, root and leaf: its first COUNT places get drawn numbers as in a
list, with seeds 0 to 4 in this order, and p is at place FAULT - 1, unless FAULT
is 0. The root is also the node that a root is written to. CALLS is how many
CALLs follow, each of them

    FAULT VALUE STORE PLACE LEAF

where VALUE is written at place FAULT - 1 of the store before the call, unless
FAULT is 0; STORE is how many of the store's numbers are handed in; and LEAF is a
list. OFFER is the two lists of a leaf and its siblings, and ROW the length of a
row buffer, each of whose numbers is 7 before. The lists of a tree are made in
buffers of 1024 places, those of an extraction in buffers of 64, and the leaf of
a replacement in one of 16, as is a row.

Each case knows the numbers that it is to be refused with, 0 for none, and an
extraction its level.
"""

from collections.abc import Callable, Iterator
from copy import deepcopy
from dataclasses import dataclass
from functools import cache
from itertools import chain

import collisions
from cases import (
    LARGEST,
    SIZES,
    Case,
    Listed,
    altered,
    case_t,
    lines,
    seeded,
    set_faults,
    turned,
    zeros,
)
from collisions import Collision, Search
from field import P
from generator import drawn_numbers
from merkle import node_start, verdict_rows

TREE_PLACES = 1024
OFFER_PLACES = 64
LEAF_PLACES = 16

HEADER, TREE_IN_FULL, TREE, CALLS, REPLACEMENTS, EXTRACTION = range(6)


# The section `trees`.


@dataclass
class Tree:
    """A set, the leaves and the sizes of a tree, and how many places are asked for."""

    case: Case
    leaves: Listed
    store: int
    siblings: int
    places: int

    def line(self, what: int) -> list[int]:
        """The line that asks for this."""
        numbers = [what, *self.case.set_text(), *self.leaves.text()]
        return [*numbers, self.store, self.siblings, self.places]


@dataclass
class Calls:
    """A set, and what each of the entries of a tree is handed; `refusals` are the numbers with
    which build, root, storeless_root, open and verify refuse it, 0 for none."""

    case: Case
    lists: dict[str, Listed]
    place: int
    refusals: list[int]

    def line(self, what: int) -> list[int]:
        """The line that asks for this."""
        held = [n for name in HELD for n in self.held(name)]
        return [what, *self.case.set_text(), *held, self.place]

    def held(self, name: str) -> list[int]:
        """The count of a list, and where it has p."""
        listed = self.lists[name]
        return [listed.count, listed.runs[0][0] + 1 if listed.runs else 0]


HELD = ["leaves", "store", "siblings", "root", "leaf"]


def tree_sizes(width: int, node_size: int, height: int) -> tuple[int, int, int, int]:
    """The lengths of leaves, store and siblings, and the number of places."""
    k = width // node_size
    nodes = sum(k**j for j in range(height + 1))
    return (
        k**height * node_size,
        nodes * node_size,
        height * (width - node_size),
        k**height,
    )


def seeded_tree(
    width: int, node_size: int, height: int, full: int, partial: int, seed: int
) -> Tree:
    """A tree of drawn leaves, from the seed after those of the set."""
    leaves, store, siblings, places = tree_sizes(width, node_size, height)
    case = seeded(width, node_size, height, full, partial, seed)
    return Tree(case, Listed(leaves, seed + 2), store, siblings, places)


def tree_t() -> Tree:
    """The tree over T of the leaves (1,0) and (0,0), and a place that it hasn't."""
    return Tree(case_t(), Listed(4, 0, [(0, [1, 0, 0, 0])]), 6, 2, 3)


def tree_heights(width: int, node_size: int) -> list[int]:
    """0 to 3, and the largest, of those whose store has a place for each word."""
    fit = [h for h in range(10) if tree_sizes(width, node_size, h)[1] <= TREE_PLACES]
    return [h for h in fit if h <= 3 or h == fit[-1]]


def seeded_trees() -> Iterator[Tree]:
    """Every width and node size, with each of its heights."""
    for i, (t, l) in enumerate(SIZES):
        for h in tree_heights(t, l):
            yield seeded_tree(t, l, h, 2 + 2 * (h % 2), h % 3, i)


def trees_with_a_zero() -> Iterator[Tree]:
    """Every width and node size with a zero in D, at another place each time."""
    for i, (t, l) in enumerate(SIZES):
        tree = seeded_tree(t, l, 1 + i % 2, 2, 1 + i % 3, 30 + i)
        zeros(i % t)(tree.case)
        yield tree


# A fault of a call: the list that is longer or shorter, or has a number that is no word.

CallFault = tuple[str, int, int | None]


def held_lists(counts: dict[str, int], faults: list[CallFault]) -> dict[str, Listed]:
    """Lists of these lengths, but for the faults."""
    lists = {name: Listed(count, i) for i, (name, count) in enumerate(counts.items())}
    for name, by, at_place in faults:
        lists[name].count += by
        if at_place is not None:
            lists[name].write(at_place, P)
    return lists


def held_counts(width: int, node_size: int, height: int) -> dict[str, int]:
    """The right lengths of what a tree's entries are handed."""
    leaves, store, siblings, _ = tree_sizes(width, node_size, height)
    return dict(zip(HELD, (leaves, store, siblings, node_size, node_size)))


def seeded_calls(
    base: tuple[int, int, int], faults: list[CallFault], refusals: str, place: int = 0
) -> Calls:
    """A drawn set, and lists of the right lengths but for the faults."""
    lists = held_lists(held_counts(*base), faults)
    return Calls(seeded(*base, 2, 0, 5), lists, place, [*map(int, refusals.split())])


def refused_lengths() -> Iterator[Calls]:
    """Each list one shorter and one longer; two faults at once where no entry takes both."""
    for by in (-1, 1):
        yield seeded_calls((4, 2, 2), [("leaves", by, None), ("leaf", by, None)], "10 0 10 0 10")
        yield seeded_calls((8, 2, 1), [("store", by, None)], "10 10 0 10 0")
        yield seeded_calls((4, 1, 1), [("siblings", by, None)], "0 0 0 10 10")
        yield seeded_calls((4, 2, 1), [("root", by, None)], "0 10 10 0 10")


def refused_places() -> Iterator[Calls]:
    """The first number that is no place, and the largest number."""
    yield seeded_calls((4, 2, 2), [], "0 0 0 11 11", 4)
    yield seeded_calls((8, 8 // 2, 1), [], "0 0 0 11 11", LARGEST)
    yield seeded_calls((4, 2, 2), [], "0 0 0 0 0", 3)
    yield seeded_calls((12, 6, 0), [], "0 0 0 11 11", 1)


def refused_words() -> Iterator[Calls]:
    """p in each list. A store is read at the root alone, and at the siblings alone."""
    base = (4, 2, 2)
    yield seeded_calls(base, [("leaves", 0, 0), ("leaf", 0, 0)], "12 0 12 0 12")
    yield seeded_calls(base, [("leaves", 0, 7), ("leaf", 0, 1)], "12 0 12 0 12")
    yield seeded_calls(base, [("store", 0, 12), ("root", 0, 0)], "0 12 0 0 12")
    yield seeded_calls(base, [("store", 0, 13), ("root", 0, 1)], "0 12 0 0 12")
    yield seeded_calls(base, [("store", 0, 2), ("siblings", 0, 0)], "0 0 0 12 12")
    yield seeded_calls(base, [("store", 0, 11), ("siblings", 0, 3)], "0 0 0 12 12")
    # The leaf itself, the node above it, and the children of another node.
    for at_place in (0, 8, 5):
        yield seeded_calls(base, [("store", 0, at_place)], "0 0 0 0 0")


def refused_twice() -> Iterator[Calls]:
    """Two refusals at once: the lower one is answered."""
    base = (4, 2, 2)
    lengths = [("leaves", 1, 0), ("siblings", 1, 0)]
    yield seeded_calls(base, [*lengths, ("store", 0, 13)], "10 12 10 10 10", 4)
    yield seeded_calls(base, [("store", 1, 14), ("root", 1, 0)], "10 10 10 10 10", 4)
    yield seeded_calls(base, [("store", 0, 11), ("leaf", 0, 0)], "0 0 0 11 11", 4)


def refused_sets() -> Iterator[Calls]:
    """A set that is refused, and a fault more."""
    base = (4, 2, 1)
    for number, ways in set_faults(seeded(*base, 2, 0, 5)).items():
        more = [("leaves", number % 2, 0), ("siblings", 0, 0)] if number in (1, 5, 9) else []
        calls = seeded_calls(base, more, " ".join([str(number)] * 5), number % 3)
        turned(ways, 0)(calls.case)
        yield calls


def trees_cases() -> Iterator[tuple[int, Tree | Calls]]:
    """The section `trees`."""
    yield (TREE_IN_FULL, tree_t())
    for tree in chain(seeded_trees(), trees_with_a_zero()):
        yield (TREE, tree)
    for part in (refused_lengths, refused_places, refused_words, refused_twice, refused_sets):
        for calls in part():
            yield (CALLS, calls)


# The section `replacements`.


@dataclass
class Replacement:
    """A call on a store: its first numbers, a place and a leaf, after a value is written at the
    place `fault` - 1 of the store; the number that is to refuse it."""

    store: int
    place: int
    leaf: Listed
    fault: int = 0
    value: int = 0
    refusal: int = 0

    def text(self) -> list[int]:
        """Its numbers in the input."""
        return [self.fault, self.value, self.store, self.place, *self.leaf.text()]


@dataclass
class Replacements:
    """A tree, and calls one after another on its store."""

    tree: Tree
    calls: list[Replacement]

    def line(self, what: int) -> list[int]:
        """The line that asks for this."""
        calls = [n for call in self.calls for n in call.text()]
        tree = [*self.tree.case.set_text(), *self.tree.leaves.text(), self.tree.store]
        return [what, *tree, len(self.calls), *calls]


class Caller:
    """Makes the calls on one tree, with drawn places and leaves."""

    def __init__(self, tree: Tree, seed: int):
        self.tree, self.set, self.drawn = tree, tree.case.handed(), drawn_numbers(seed)
        self.arity = tree.case.width // tree.case.node_size

    def place(self) -> int:
        """A drawn place."""
        return next(self.drawn) % self.tree.places

    def call(self, place: int, refusal: int = 0, fault: int = 0, value: int = P) -> Replacement:
        """A call that is refused for the store's fault, or not at all."""
        leaf = Listed(self.tree.case.node_size, next(self.drawn) % 1000)
        return Replacement(self.tree.store, place, leaf, fault, value if fault else 0, refusal)

    def faulty(
        self, refusal: int, place: int, longer: int = 0, store: int = 0, word: int | None = None
    ) -> Replacement:
        """A call that is refused for its arguments."""
        call = self.call(place, refusal)
        call.store += store
        call.leaf.count += longer
        if word is not None:
            call.leaf.write(word, P)
        return call

    def fault(self, level: int, index: int, word: int = 0) -> int:
        """The fault in a word of a node."""
        return node_start(self.set, level, index) + word + 1

    def beside(self, index: int) -> int:
        """A node of the same row."""
        return index - index % self.arity + (index + 1) % self.arity


def argument_faults(caller: Caller, by: int) -> Iterator[Replacement]:
    """10 to 12 by the arguments, alone and the lowest of two, between accepted calls."""
    places, last = caller.tree.places, caller.tree.case.node_size - 1
    place = caller.place()
    yield caller.call(place)
    yield caller.faulty(10, place, longer=by)
    yield caller.call(caller.place())
    yield caller.faulty(10, place, store=-by)
    yield caller.faulty(11, places if by > 0 else LARGEST)
    yield caller.faulty(12, place, word=0 if by > 0 else last)
    yield caller.call(place)
    yield caller.faulty(10, places, longer=by, word=0)
    yield caller.faulty(11, places, word=last)


def read_faults(caller: Caller, level: int) -> Iterator[Replacement]:
    """A stored sibling that is no word: refused, until the leaf below it is written anew."""
    place = caller.place()
    below = caller.arity**level
    other = caller.beside(place // below)
    word = 0 if level == 0 else caller.tree.case.node_size - 1
    yield caller.call(place, 12, caller.fault(level, other, word))
    yield caller.call(other * below)
    yield caller.call(place)


def unread_faults(caller: Caller) -> Iterator[Replacement]:
    """Stored numbers that aren't read: the leaf itself, the root, a leaf in another row. The last
    one stays until it is read, and until it is written."""
    place = caller.place()
    yield caller.call(place, 0, caller.fault(0, place), LARGEST)
    yield caller.call(place, 0, caller.tree.store)
    if caller.tree.places > caller.arity:
        far = (place + caller.arity) % caller.tree.places
        yield caller.call(place, 0, caller.fault(0, far))
        yield caller.call(caller.beside(far), 12)
        yield caller.call(far)


def seeded_replacements() -> Iterator[Replacements]:
    """Every width and node size, with its largest height and a small one."""
    for i, (t, l) in enumerate(SIZES):
        for h, by in (((i + 1) % 3, 1), (tree_heights(t, l)[-1], -1)):
            tree = seeded_tree(t, l, h, 2 + 2 * (i % 3), i % 4, 20 + i)
            caller = Caller(tree, 700 + 10 * i + h)
            calls = [*argument_faults(caller, by)]
            for level in sorted({0, h - 1}) if h > 0 else []:
                calls += read_faults(caller, level)
            yield Replacements(tree, [*calls, *unread_faults(caller)])


def replacements_with_a_zero() -> Iterator[Replacements]:
    """Each width with a zero in D: calls that are done, and one that is refused."""
    for i, (t, l) in enumerate(((4, 2), (8, 4), (12, 4))):
        tree = seeded_tree(t, l, 2, 2, 1 + i, 50 + i)
        zeros(i)(tree.case)
        caller = Caller(tree, 900 + i)
        calls = [caller.call(caller.place()), caller.faulty(11, tree.places), caller.call(0)]
        yield Replacements(tree, calls)


def replacements_in_refused_sets() -> Iterator[Replacements]:
    """A set that is refused, for a call without a fault and for one with a fault more."""
    for number, ways in set_faults(seeded(4, 2, 1, 2, 0, 5)).items():
        tree = seeded_tree(4, 2, 1, 2, 0, 5)
        caller = Caller(tree, number)
        calls = [caller.call(0, number), caller.faulty(number, 2, longer=1, word=0)]
        turned(ways, 1)(tree.case)
        yield Replacements(tree, calls)


def replacements_cases() -> Iterator[tuple[int, Replacements]]:
    """The section `replacements`."""
    for part in (seeded_replacements, replacements_with_a_zero, replacements_in_refused_sets):
        for replacements in part():
            yield (REPLACEMENTS, replacements)


# The section `extractions`.


@dataclass
class Extraction:
    """A set, a root, a place, two leaves with their siblings, and the lengths of two row buffers;
    the number that is to refuse it, or the level that is to be given; and where the case is about
    it, whether each opening is to be accepted."""

    case: Case
    lists: dict[str, Listed]
    place: int
    rows: list[int]
    refusal: int = 0
    level: int = 0
    accepted: tuple[bool, bool] | None = None

    def line(self, what: int) -> list[int]:
        """The line that asks for this."""
        root, *offers = (self.lists[name].text() for name in OFFERED)
        offered = [n for numbers in offers for n in numbers]
        return [what, *self.case.set_text(), *root, self.place, *offered, *self.rows]

    def handed(self) -> list[list[int]]:
        """The root, and each leaf with its siblings after it."""
        return [self.lists[name].numbers(OFFER_PLACES) for name in OFFERED]


OFFERED = ["root", "first", "first_siblings", "second", "second_siblings"]


def whole(words: list[int]) -> Listed:
    """A list that is written out."""
    return Listed(len(words), 0, [(0, words)] if words else [])


def extraction(made: Collision, swapped: bool = False) -> Extraction:
    """The extraction of a collision, or of its openings the other way round."""
    s = made.set
    case = seeded(s.width, s.node_size, s.height, 2, 0, made.seed)
    case.constants = whole(s.constants[: case.constants.count])
    one, two = (made.second, made.first) if swapped else (made.first, made.second)
    lists = dict(zip(OFFERED, map(whole, (made.root, *one, *two))))
    rows = [s.width, s.width]
    return Extraction(case, lists, made.place, rows, level=made.level, accepted=(True, True))


# The seeds are such that few pairs are drawn in vain.


@cache
def meeting_at(width: int, node_size: int, height: int, level: int, digit: int) -> Collision:
    """Openings whose rows compress alike at one level, and not below it."""
    search = Search(width, node_size, 424)
    pairs = collisions.meeting_at(search, level)
    return collisions.collision(search, pairs, height, level, digit)


@cache
def meeting_twice(width: int, node_size: int, digit: int) -> Collision:
    """Openings whose rows compress alike at levels 0 and 1, and differ at both."""
    search = Search(width, node_size, 428)
    return collisions.collision(search, collisions.meeting_twice(search), 2, 0, digit)


@cache
def words_apart(width: int, node_size: int, height: int, places: tuple[int, ...]) -> Collision:
    """Openings whose first rows differ in some words; the leaf is the first node."""
    search = Search(width, node_size, 424)
    return collisions.collision(search, collisions.words_apart(search, places), height, 0, 0)


def extractions_at_one_level() -> Iterator[Extraction]:
    """Every width and node size at level 0, most at level 1, and some higher, with the leaf in one
    place of its row or another."""
    for i, (t, l) in enumerate(SIZES):
        yield extraction(meeting_at(t, l, 1, 0, i % (t // l)), i % 2 == 1)
    for i, (t, l) in enumerate(((4, 1), (4, 2), (8, 1), (8, 2), (8, 4), (12, 1), (12, 3), (12, 6))):
        yield extraction(meeting_at(t, l, 2, 1, i % (t // l)), i % 2 == 0)
    for t, l, level in ((4, 1, 2), (4, 1, 3), (8, 2, 2), (12, 4, 2)):
        yield extraction(meeting_at(t, l, level + 1, level, 0))
    # Equal rows above the level that is given.
    yield extraction(meeting_at(4, 2, 6, 1, 1), True)


def extractions_at_two_levels() -> Iterator[Extraction]:
    """The lower level is given, in whichever order the openings are."""
    for i, (t, l) in enumerate(((4, 1), (4, 2), (8, 4), (12, 6))):
        yield extraction(meeting_twice(t, l, i % (t // l)), i % 2 == 1)


def extractions_of_a_leaf() -> Iterator[Extraction]:
    """The leaves differ in one word, and no sibling does. The places that aren't used hold p."""
    for t, l, word in ((4, 1, 0), (8, 2, 0), (12, 3, 1), (12, 6, 5)):
        one = extraction(words_apart(t, l, 1, (word,)))
        one.case.beyond = P
        yield one


# Faults of an extraction.

ExtractionFault = Callable[[Extraction], None]


def resized(name: str, by: int) -> ExtractionFault:
    """A list that is longer or shorter."""

    def fault(one: Extraction) -> None:
        one.lists[name].count += by

    return fault


def resized_row(which: int, by: int) -> ExtractionFault:
    """A row buffer that is longer or shorter."""

    def fault(one: Extraction) -> None:
        one.rows[which] += by

    return fault


def placed(place: int) -> ExtractionFault:
    """Another place."""

    def fault(one: Extraction) -> None:
        one.place = place

    return fault


def spoilt(name: str, place: int, value: int = P) -> ExtractionFault:
    """Another number in a list; the last is at the place -1."""

    def fault(one: Extraction) -> None:
        one.lists[name].write(place % one.lists[name].count, value)

    return fault


def damaged(name: str) -> ExtractionFault:
    """Another word in a list."""

    def fault(one: Extraction) -> None:
        word = one.lists[name].numbers(OFFER_PLACES)[0]
        one.lists[name].write(0, (word + 1) % P)

    return fault


def copied(name: str, to: str) -> ExtractionFault:
    """A list in the place of another."""

    def fault(one: Extraction) -> None:
        one.lists[to] = deepcopy(one.lists[name])

    return fault


def twin(one: Extraction) -> None:
    """The first opening in the place of the second."""
    copied("first", "second")(one)
    copied("first_siblings", "second_siblings")(one)


def refused(base: Extraction, number: int, *faults: ExtractionFault) -> Extraction:
    """The extraction with these faults."""
    one = deepcopy(base)
    for fault in faults:
        fault(one)
    one.refusal, one.accepted = number, None
    return one


def drawn_extraction(width: int, node_size: int, height: int) -> Extraction:
    """Drawn lists of the right lengths. No such opening is accepted."""
    siblings = height * (width - node_size)
    counts = (node_size, node_size, siblings, node_size, siblings)
    lists = {name: Listed(count, i) for i, (name, count) in enumerate(zip(OFFERED, counts))}
    return Extraction(seeded(width, node_size, height, 2, 0, 5), lists, 0, [width, width], 14)


def extractions_of_lists() -> Iterator[Extraction]:
    """10 to 12, each list in turn, and several refusals at once."""
    base = drawn_extraction(8, 4, 2)
    yield base
    yield refused(base, 15, twin)
    for by in (-1, 1):
        for name in OFFERED:
            yield refused(base, 10, resized(name, by))
        for which in range(2):
            yield refused(base, 10, resized_row(which, by))
    for place in (4, LARGEST):
        yield refused(base, 11, placed(place))
    for name in OFFERED:
        yield refused(base, 12, spoilt(name, 0))
        yield refused(base, 12, spoilt(name, -1, LARGEST))
    bad = spoilt("second", 0)
    yield refused(base, 10, resized_row(1, 1), placed(4), bad)
    yield refused(base, 10, bad, resized("second_siblings", -1))
    yield refused(base, 11, placed(4), bad)
    # Equal leaves, whose openings are not accepted, after what is tested before them.
    yield refused(base, 10, twin, resized_row(0, 1))
    yield refused(base, 11, twin, placed(4))
    yield refused(base, 12, twin, spoilt("first_siblings", 0))
    yield refused(base, 12, spoilt("first", 0), twin)
    for number, ways in set_faults(base.case).items():
        one = refused(base, number, *([bad, resized("root", 1)] if number % 2 == 1 else [twin]))
        turned(ways, 2)(one.case)
        yield one


def refused_openings() -> Iterator[Extraction]:
    """10 to 15 on openings that collide."""
    base = extraction(meeting_at(4, 2, 1, 0, 0))
    for fault in (resized("root", 1), resized("first_siblings", 1), resized_row(0, 1)):
        yield refused(base, 10, fault)
    yield refused(base, 11, placed(2))
    for name in OFFERED:
        yield refused(base, 14, damaged(name))
    yield refused(base, 14, damaged("first"), damaged("second_siblings"))
    yield refused(base, 15, damaged("first"), twin)
    yield refused(base, 15, twin)
    yield refused(extraction(meeting_at(4, 1, 3, 2, 0)), 14, damaged("second_siblings"))
    # p is not another zero.
    zero = extraction(words_apart(4, 1, 1, (0,)))
    yield refused(zero, 12, spoilt("first_siblings", -1))
    yield refused(zero, 12, spoilt("second_siblings", -1))
    # The leaves are equal, and their rows collide.
    yield refused(extraction(words_apart(4, 2, 1, (2, 3))), 15)


def extractions_of_one_leaf() -> Iterator[Extraction]:
    """Height 0: a leaf is accepted if it is the root, so two leaves that differ never are. The root
    is drawn from the seed 1."""
    for t, l in ((4, 2), (12, 6)):
        case = seeded(t, l, 0, 2, 0, 5)
        for a, b in ((1, 1), (2, 2), (1, 2), (2, 1), (2, 3)):
            root, first, second = (Listed(l, seed) for seed in (1, a, b))
            lists = dict(zip(OFFERED, (root, first, Listed(0, 0), second, Listed(0, 0))))
            number = 15 if a == b else 14
            yield Extraction(case, lists, 0, [t, t], number, accepted=(a == 1, b == 1))


# For each width and node size a height for which the siblings fill most of their buffer, or few.
OPENED_HEIGHTS = (3, 32, 2, 4, 16, 1, 6, 7, 8, 10)


def opened_case(i: int) -> tuple[Case, int]:
    """A set of the i-th width and node size, one in three with a zero in D, and a place."""
    (t, l), h = SIZES[i], OPENED_HEIGHTS[i]
    case = seeded(t, l, h, 2 * (i % 6 + 1), 7 * i, 700 + 3 * i)
    return (altered(case, zeros(i % t)) if i % 3 == 2 else case, 5 ** (3 * i) % (t // l) ** h)


def openings_of_two_leaves() -> Iterator[Extraction]:
    """Each opening good or bad, with equal leaves, for which it doesn't matter, and with leaves that
    differ in one word; both good with different leaves are the collisions above."""
    for i, (t, l) in enumerate(SIZES):
        case, place = opened_case(i)
        good, bad = (Listed(case.height * (t - l), seed) for seed in (2, 3))
        leaf, other = Listed(l, 1), Listed(l, 1)
        word = leaf.numbers(OFFER_PLACES)[i % l]
        other.write(i % l, (word + 1) % P)
        words = (one.numbers(OFFER_PLACES) for one in (leaf, good))
        _, end = verdict_rows(case.handed(), place, *words)
        root, another = whole(end), Listed(l, 4)
        for top, first, second, accepted in (
            (root, (leaf, good), (leaf, good), (True, True)),
            (root, (leaf, good), (leaf, bad), (True, False)),
            (root, (leaf, bad), (leaf, good), (False, True)),
            (root, (leaf, bad), (leaf, bad), (False, False)),
            (another, (leaf, good), (leaf, good), (False, False)),
            (root, (leaf, good), (other, good), (True, False)),
            (root, (other, good), (leaf, good), (False, True)),
            (another, (leaf, good), (other, good), (False, False)),
        ):
            lists = dict(zip(OFFERED, (top, *first, *second)))
            number = 15 if first[0] is second[0] else 14
            yield Extraction(case, lists, place, [t, t], number, accepted=accepted)


def extractions_cases() -> Iterator[tuple[int, Extraction]]:
    """The section `extractions`."""
    for part in (
        extractions_at_one_level,
        extractions_at_two_levels,
        extractions_of_a_leaf,
        extractions_of_lists,
        refused_openings,
        extractions_of_one_leaf,
        openings_of_two_leaves,
    ):
        for one in part():
            yield (EXTRACTION, one)


SECTIONS = [trees_cases, replacements_cases, extractions_cases]

if __name__ == "__main__":
    for line in lines(SECTIONS):
        print(line)
