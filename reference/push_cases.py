"""Makes the cases on which the bindings' pushes are held to the reference: trees, and
lists of pushes on each. Some trees are too large for a program.

The numbers have the form that cases.py describes, with its sets and lists. The
first line is how many trees follow, each of them a line

    SET BEYOND D C STORE RUNS {PLACE LENGTH VALUE ...} ... PUSHES RECORDS ...

where STORE is the length of the store, whose numbers are 0 but for those that the
RUNS runs write; and PUSHES is how many lists RECORDS follow, each of seven numbers
a record, its place and six words, made in a buffer of 7168 places. No store is
built: a push asks of one that its numbers are words, and of nothing more.

Each push knows the number that it is to be refused with, 0 for none.
"""

from collections.abc import Callable, Iterator
from dataclasses import dataclass, field
from itertools import combinations, product

from cases import LARGEST, SIZES, Listed, counted
from field import P
from history_cases import (
    LENGTHS,
    ORDERS,
    RECORD,
    Caller,
    Pair,
    Push,
    border,
    edges,
    ends,
    equal_leaves,
    exchanged,
    falling,
    faults_at_once,
    long_places,
    neighbours,
    paired,
    pairs,
    repeated_places,
    unread_words,
)
from tree_cases import Tree, seeded_tree, tree_sizes

MOST = 1024
RECORD_PLACES = RECORD * MOST

# As many as a subtree has at most that every tree is tried with: over 128 (see LENGTHS).
SOME = 216

# The library's map has a bit for each of so many places.
WINDOW = 2**20


@dataclass
class Pushes:
    """A tree, what is written in its store of zeros, and the pushes on it."""

    tree: Tree
    written: Listed
    pushes: list[Push] = field(default_factory=list)

    def line(self) -> list[int]:
        """Its line."""
        _, _, *runs = self.written.text()
        numbers = [*self.tree.case.set_text(), self.tree.store, *runs, len(self.pushes)]
        return numbers + [n for push in self.pushes for n in push.records.text()]


# Lists for any tree.


def short_lists(caller: Caller) -> Iterator[Push]:
    """Of no record, one and a few; with a place twice, with equal leaves, with several faults."""
    yield caller.push()
    yield caller.push(*caller.spread(1))
    yield caller.push(*caller.spread(5))
    for part in (repeated_places, equal_leaves, faults_at_once, unread_words):
        yield from part(caller)
        yield caller.push(*caller.spread(3))


def one_place(caller: Caller) -> Iterator[Push]:
    """The last place in every record, and then in one."""
    for count in (2, 3, *LENGTHS, 300):
        yield caller.push(*[caller.places - 1] * count, refusal=17)
        yield caller.push(caller.places - 1)


def shared_nodes(caller: Caller) -> Iterator[Push]:
    """Places that have nodes above them in common: neighbours, whole subtrees and parts of them, a
    place under each node of a level; and drawn ones, first few and then many."""
    for places in neighbours(caller), border(caller), ends(caller), []:
        yield caller.push(*places)
        yield caller.push(*reversed(places))
    for level in levels(caller, SOME):
        yield from whole_subtrees(caller, level)
        yield from broken_subtrees(caller, level)
        yield caller.push(*one_under_each(caller, caller.height - level))
    for count in (1, 2, 3, 10, 100, SOME):
        yield caller.push(*caller.spread(count))


def levels(caller: Caller, most: int) -> list[int]:
    """The levels that have at most so many places under a node."""
    return [j for j in range(caller.height + 1) if caller.arity**j <= most]


def whole_subtrees(caller: Caller, level: int) -> Iterator[Push]:
    """All places under a node of a level, the first, the last and a drawn one, in each order."""
    size = caller.arity**level
    first, last = range(size), range(caller.places - size, caller.places)
    for order, places in zip(ORDERS, ([*first], [*last], caller.shuffled(caller.under(level)))):
        yield caller.push(*order(places))


def broken_subtrees(caller: Caller, level: int) -> Iterator[Push]:
    """A subtree but for one place, with the first and the last place of the tree; and as many
    places on both sides of the border."""
    under = caller.under(level)
    gone = under[next(caller.drawn) % len(under)]
    yield caller.push(*caller.shuffled({*under, *ends(caller)} - {gone}))
    start = max(border(caller)[0] - len(under) // 2, 0)
    around = range(start, min(start + len(under), caller.places))
    yield caller.push(*caller.shuffled(around))


def one_under_each(caller: Caller, level: int) -> list[int]:
    """A drawn place under each node of a level."""
    size = caller.arity**level
    return caller.shuffled(n + next(caller.drawn) % size for n in range(0, caller.places, size))


# Lists for trees of 512 places or more.


def every_pair(caller: Caller) -> Iterator[Push]:
    """Lists of up to ten records in each order: without a pair, and with each."""
    for count, order in product(range(2, 11), ORDERS):
        places = order(caller.spread(count))
        yield caller.push(*places)
        for pair in combinations(range(count), 2):
            yield caller.push(*paired(places, pair), refusal=17)


def every_pair_with_the_last(caller: Caller) -> Iterator[Push]:
    """Lists of 128 and of 129 records that fall: the last has the place of each other."""
    for count in (128, 129):
        places = long_places(caller, count, falling)
        yield caller.push(*places)
        for one in range(count - 1):
            yield caller.push(*paired(places, (one, count - 1)), refusal=17)


def long_lists(caller: Caller) -> Iterator[Push]:
    """Each length in each order: without a pair, and with each, as drawn also of each edge."""
    for count, order in product(LENGTHS, ORDERS):
        places = long_places(caller, count, order)
        yield caller.push(*places)
        for pair in pairs(count) if count < 130 else [*pairs(count), (127, 128)]:
            yield caller.push(*paired(places, pair), refusal=17)
            if order is list:
                yield from of_each(caller, places, pair, edges(caller.places))


def of_each(caller: Caller, places: list[int], pair: Pair, repeated: list[int]) -> Iterator[Push]:
    """A push for each of these places, which the pair has."""
    for place in repeated:
        made = paired(exchanged(places, pair[0], place), pair)
        yield caller.push(*made, refusal=17)


def nearly_rising(caller: Caller) -> Iterator[Push]:
    """Lists that rise but for one record, which is put first, fifth or last. Then it has the place
    of the one before it, of the one after it, and of the last."""
    for count, end in product((9, *LENGTHS), (0, 4, -1)):
        places, end = long_places(caller, count, sorted), end % count
        for moved in (count // 3, count - 2):
            made = list(places)
            made.insert(end, made.pop(moved))
            yield caller.push(*made)
            for one in sorted({end - 1, end + 1, count - 1} & {*range(count)} - {end}):
                yield caller.push(*paired(made, (one, end)), refusal=17)


def all_places(caller: Caller) -> Iterator[Push]:
    """Every place, in each order; and one of them again, first, within or last."""
    for order, at in zip(ORDERS, (0, 200, caller.places)):
        places = order(caller.spread(caller.places))
        yield caller.push(*places)
        yield caller.push(*places[:at], caller.place(), *places[at:], refusal=17)


# Lists for trees of 2^20 places or more.


def window_edges(places: int) -> list[int]:
    """The first place, some beside multiples of 64, those beside multiples of 2^20, the last."""
    ends = [n for end in range(WINDOW, places, WINDOW) for n in (end - 1, end)]
    return [0, 63, 64, 2**14 - 1, 2**14, *ends, places - 1]


def wide_places(caller: Caller, count: int) -> list[int]:
    """So many places as drawn, the edges among them."""
    return caller.spread(count, *window_edges(caller.places))


def wide_lists(caller: Caller) -> Iterator[Push]:
    """Lists of 129 in each order, without a pair and with their last two, and of fewer and of more
    as drawn. Then each length with its pairs, which have each of the edges in turn."""
    for order in ORDERS:
        places = order(wide_places(caller, 129))
        yield caller.push(*places)
        yield caller.push(*paired(places, (127, 128)), refusal=17)
    for count in (128, 192):
        yield caller.push(*wide_places(caller, count))
    for count in LENGTHS:
        places, repeated = wide_places(caller, count), window_edges(caller.places)
        for i, pair in enumerate(pairs(count)):
            yield from of_each(caller, places, pair, repeated[i % 2 :: 2])


def apart(caller: Caller) -> Iterator[Push]:
    """Places that differ by a multiple of 2^20, or by one power of 2 from 2^6 on in their bits: up
    to 128 of them, and more. Then one of them twice."""
    bits = range(6, caller.places.bit_length())
    for count, order in product((2, 6), (falling, list)):
        some = [0, 63, WINDOW - 1, *caller.spread(count)]
        near = {n % WINDOW + start for n in some for start in range(0, caller.places, WINDOW)}
        near |= {n ^ 1 << bit for n in some for bit in bits}
        places = order(caller.spread(0, *(n for n in near if n < caller.places)))
        yield caller.push(*places)
        yield caller.push(*paired(places, (3, len(places) - 2)), refusal=17)


def in_one_window(caller: Caller) -> Iterator[Push]:
    """Of each 2^20 places one, beside a long list of others: once, and twice. The others are no
    places of these 2^20, unless the tree has no more."""
    for start in range(0, caller.places, WINDOW):
        size = min(WINDOW, caller.places - start)
        place = start + next(caller.drawn) % size
        others = [n for n in caller.spread(400, place) if n != place]
        others = [n for n in others if not start <= n < start + size] or others
        places = [*others[:70], place, *others[70:140]]
        yield caller.push(*places)
        yield caller.push(*places[:71], place, *places[71:], refusal=17)
        yield caller.push(place, *others[:140], place, refusal=17)


def long_faults(caller: Caller) -> Iterator[Push]:
    """11, 12 and 17 in every combination in a long list, a fault of each at the beginning, in the
    middle or at the end: the first of them refuses."""
    choices = [chosen for n in (1, 2, 3) for chosen in combinations((11, 12, 17), n)]
    for faults, turn in product(choices, range(3)):
        places = wide_places(caller, 150)
        at = dict(zip((11, 12, 17), [*(1, 75, 148)[turn:], *(1, 75, 148)[:turn]]))
        if 17 in faults:
            places = paired(places, (at[17] - 1, at[17]))
        push = caller.push(*places, refusal=faults[0])
        if 11 in faults:
            bad = (caller.places, caller.places + WINDOW, LARGEST)[turn]
            push.records.write(RECORD * at[11], bad)
        if 12 in faults:
            push.records.write(RECORD * at[12] + caller.size, P)
        yield push


def many(caller: Caller) -> Iterator[Push]:
    """As many records as there is room for: none twice, and two."""
    places = wide_places(caller, MOST)
    yield caller.push(*places)
    for pair in (0, MOST - 1), (MOST - 2, MOST - 1), (300, 700):
        yield from of_each(caller, places, pair, [caller.places - 1])


def large_subtrees(caller: Caller) -> Iterator[Push]:
    """The largest subtrees that there is room for, and a place under each node of the lowest level
    that has no more nodes."""
    *_, level = levels(caller, MOST)
    yield from whole_subtrees(caller, level)
    yield caller.push(*one_under_each(caller, caller.height - level))


# What each tree has.

Part = Callable[[Caller], Iterator[Push]]
SMALL: list[Part] = [short_lists, one_place]
MIDDLE: list[Part] = [
    *SMALL,
    every_pair,
    every_pair_with_the_last,
    long_lists,
    nearly_rising,
    all_places,
]
LARGE: list[Part] = [wide_lists, apart, in_one_window, shared_nodes, large_subtrees]


def pushes_on(shape: tuple[int, int, int], seed: int, parts: list[Part]) -> Pushes:
    """A tree and its pushes; the least rounds."""
    tree = seeded_tree(*shape, 2, 0, 80 + 5 * seed)
    caller = Caller(tree, 3000 + seed)
    pushes = [push for part in parts for push in part(caller)]
    return Pushes(tree, Listed(tree.store, 0), pushes)


def spoilt_store(shape: tuple[int, int, int], seed: int, at: int) -> Pushes:
    """A store with p in it, and pushes that have to be refused with 11 or else with 12."""
    tree = seeded_tree(*shape, 2, 0, 80 + 5 * seed)
    caller = Caller(tree, 3000 + seed)
    pushes = [push for part in (faults_at_once, long_faults) for push in part(caller)]
    pushes += [caller.push(), caller.push(0), caller.push(0, 0), *many(caller)]
    for push in pushes:
        push.refusal = 11 if push.refusal == 11 else 12
    return Pushes(tree, Listed(tree.store, 0, [(at % tree.store, [P])]), pushes)


def sized_trees() -> Iterator[tuple[int, int, int]]:
    """Each width and node size with the heights 0 to 2, and with the largest of a store of at most
    2^16 words."""
    for t, l in SIZES:
        fit = [h for h in range(16) if tree_sizes(t, l, h)[1] <= 2**16]
        for h in (0, 1, 2, fit[-1]):
            yield t, l, h


def all_pushes() -> Iterator[Pushes]:
    """Trees of one place, of few, of 512, of less than three times 2^20, of four times and of once;
    stores with p in them; and every width and node size."""
    for seed, shape in enumerate([(4, 2, 0), (12, 6, 0), (4, 2, 1), (8, 4, 3)]):
        yield pushes_on(shape, seed, SMALL)
    yield pushes_on((8, 1, 3), 4, MIDDLE)
    yield pushes_on((12, 1, 6), 5, [*SMALL, *LARGE, long_faults, many])
    yield pushes_on((4, 1, 11), 6, LARGE)
    yield pushes_on((4, 2, 20), 7, LARGE)
    yield spoilt_store((12, 1, 6), 8, 0)
    yield spoilt_store((4, 2, 20), 9, -1)
    for seed, shape in enumerate(sized_trees(), 10):
        yield pushes_on(shape, seed, [shared_nodes])


def lines() -> list[str]:
    """Every line."""
    return counted([one.line() for one in all_pushes()])


if __name__ == "__main__":
    for line in lines():
        print(line)
