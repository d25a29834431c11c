"""Makes the input of the program `history_vectors`: trees, and lists of calls on them.

The numbers have the form that cases.py describes, with its sets and lists. The
first line is how many trees follow, each of them a line

    SET BEYOND D C LEAVES STORE SIBLINGS PLACES CALLS CALL ...

where LEAVES is a list of words; STORE and SIBLINGS are the lengths of the store and
of an opening; PLACES is how many places are asked for at the end, 0 the first; and
CALLS is how many CALLs follow, each of them one of

    0 PLACE LEAF          a replacement
    1 RECORDS             a push

where LEAF is a list, made in a buffer of 16 places, and RECORDS a list of seven
numbers a record, its place and six words, made in one of 1344.

Each call knows the number that it is to be refused with, 0 for none.
"""

from collections.abc import Callable, Iterable, Iterator
from dataclasses import dataclass, field, replace
from itertools import combinations, product, zip_longest

from cases import LARGEST, SIZES, Listed, counted
from field import P
from generator import drawn_numbers
from tree_cases import Tree, seeded_tree, tree_heights, tree_t

RECORD = 7
MOST = 192
RECORD_PLACES = RECORD * MOST
LEAF_PLACES = 16

REPLACE, PUSH = range(2)


@dataclass
class Replace:
    """A replacement, and the number that is to refuse it."""

    place: int
    leaf: Listed
    refusal: int = 0

    def text(self) -> list[int]:
        """Its numbers in the input."""
        return [REPLACE, self.place, *self.leaf.text()]


@dataclass
class Push:
    """A push, and the number that is to refuse it."""

    records: Listed
    refusal: int = 0

    def text(self) -> list[int]:
        """Its numbers in the input."""
        return [PUSH, *self.records.text()]

    def listed(self, places: int = RECORD_PLACES) -> list[tuple[int, list[int]]]:
        """The records that it hands in, from a buffer of so many places."""
        numbers = self.records.numbers(places)
        starts = range(0, len(numbers), RECORD)
        return [(numbers[i], numbers[i + 1 : i + RECORD]) for i in starts]


@dataclass
class History:
    """A tree, and the calls on it."""

    tree: Tree
    calls: list[Replace | Push] = field(default_factory=list)

    def line(self) -> list[int]:
        """Its line."""
        tree = self.tree
        numbers = [*tree.case.set_text(), *tree.leaves.text()]
        numbers += [tree.store, tree.siblings, tree.places, len(self.calls)]
        return numbers + [n for call in self.calls for n in call.text()]


class Caller:
    """Makes calls on one tree, with drawn places and leaves."""

    def __init__(self, tree: Tree, seed: int):
        self.drawn, self.size = drawn_numbers(seed), tree.case.node_size
        self.arity, self.height = tree.case.width // self.size, tree.case.height
        self.places = self.arity**self.height

    def seed(self) -> int:
        """A drawn seed, short to write."""
        return next(self.drawn) % 1000

    def place(self) -> int:
        """A drawn place."""
        return next(self.drawn) % self.places

    def replace(self) -> Replace:
        """A replacement that is accepted."""
        return Replace(self.place(), Listed(self.size, self.seed()))

    def push(self, *places: int, refusal: int = 0) -> Push:
        """A push of records for these places."""
        records = Listed(RECORD * len(places), self.seed())
        for i, place in enumerate(places):
            records.write(RECORD * i, place)
        return Push(records, refusal)

    def spread(self, count: int, *wanted: int) -> list[int]:
        """So many places, the wanted ones among them, each once and in a drawn order; all
        places where there are fewer."""
        places = set(wanted)
        while len(places) < min(count, self.places):
            places.add(self.place())
        return self.shuffled(places)

    def shuffled(self, places: Iterable[int]) -> list[int]:
        """The places in a drawn order."""
        return sorted(sorted(places), key=lambda _: next(self.drawn))

    def under(self, level: int) -> list[int]:
        """The places under a drawn node of a level, or under the root if there is no such level."""
        size = self.arity ** min(level, self.height)
        first = self.place() // size * size
        return [*range(first, first + size)]


# Short lists.


def accepted_calls(caller: Caller) -> Iterator[Replace | Push]:
    """Replacements, pushes of none, one and several records, and of one place again and again."""
    yield caller.replace()
    yield caller.push()
    yield caller.push(*caller.spread(1))
    yield caller.push(*caller.spread(5))
    again = caller.place()
    yield caller.push(again)
    yield caller.push(*caller.spread(3, again))
    yield Replace(again, Listed(caller.size, caller.seed()))


def refused_replacements(caller: Caller) -> Iterator[Replace]:
    """10, 11 and 12, and two at once."""
    size, seed, places = caller.size, caller.seed(), caller.places
    yield Replace(caller.place(), Listed(size + 1, seed), 10)
    yield Replace(places, Listed(size - 1, seed), 10)
    yield Replace(places, Listed(size, seed, [(0, [P])]), 11)
    yield Replace(caller.place(), Listed(size, seed, [(size - 1, [P])]), 12)


def refused_pushes(caller: Caller) -> Iterator[Push]:
    """A record that is refused, first, within or last; 11 and 12 at once, in both orders."""
    size, places = caller.size, caller.places
    for at, bad in ((0, places), (1, LARGEST), (2, places)):
        spread = caller.spread(2)
        yield caller.push(*spread[:at], bad, *spread[at:], refusal=11)
    for at, word in ((0, 0), (-1, size - 1)):
        spread = caller.spread(3)
        push = caller.push(*spread, refusal=12)
        push.records.write(RECORD * (at % len(spread)) + 1 + word, P)
        yield push
    for place_at, word_at in ((0, 1), (1, 0)):
        push = caller.push(*caller.spread(1) * 2, refusal=11)
        push.records.write(RECORD * place_at, places)
        push.records.write(RECORD * word_at + 1, P)
        yield push


# Which place each record has: the first and the last the same, neighbours, others, three.
REPEATED = [(0, 0), (0, 1, 2, 3, 0), (0, 1, 1, 2), (0, 1, 2, 1, 3), (0, 1, 2, 2), (0, 1, 0, 0)]


def repeated_places(caller: Caller) -> Iterator[Push]:
    """17: a place twice. The places are in a drawn order, and rise, by turns."""
    for i, pattern in enumerate(REPEATED):
        spread = caller.spread(4)
        places = sorted(spread) if i % 2 else spread
        yield caller.push(*(places[n % len(places)] for n in pattern), refusal=17)


def equal_leaves(caller: Caller) -> Iterator[Push]:
    """Records that differ in the place alone, and two that don't differ."""
    for places, refusal in ((caller.spread(2), 0), (caller.spread(1) * 2, 17)):
        push = caller.push(*places, refusal=refusal)
        for i in range(len(places)):
            push.records.write(RECORD * i + 1, *[5] * (RECORD - 1))
        yield push


def faults_at_once(caller: Caller) -> Iterator[Push]:
    """11, 12 and 17 in every combination, the records in two orders; two records with one place
    where that is no place, and where one has a number that is no word."""
    choices = [chosen for n in (1, 2, 3) for chosen in combinations((11, 12, 17), n)]
    for faults, turned in product(choices, (False, True)):
        spread = caller.spread(2)
        made = {11: (caller.places, 0), 12: (spread[-1], P), 17: (spread[0], 0)}
        records = [(spread[0], 0), *(made[number] for number in faults)]
        yield beginning(caller, records[::-1] if turned else records, faults[0])
    place = caller.place()
    yield beginning(caller, [(caller.places, 0), (caller.places, 0)], 11)
    yield beginning(caller, [(place, 0), (place, P)], 12)


def beginning(caller: Caller, records: list[tuple[int, int]], refusal: int) -> Push:
    """A push of records that begin with this place and word."""
    push = Push(Listed(RECORD * len(records), caller.seed()), refusal)
    for i, record in enumerate(records):
        push.records.write(RECORD * i, *record)
    return push


def unread_words(caller: Caller) -> Iterator[Push]:
    """What follows a record's first l words is not read."""
    if caller.size < 6:
        push = caller.push(*caller.spread(2))
        push.records.write(push.records.count - 1, LARGEST)
        push.records.write(1 + caller.size, P)
        yield push


Part = Callable[[Caller], Iterator[Replace | Push]]
PARTS: list[Part] = [
    accepted_calls,
    refused_replacements,
    refused_pushes,
    repeated_places,
    unread_words,
]
MORE_PARTS: list[Part] = [*PARTS, equal_leaves, faults_at_once]


def history(tree: Tree, seed: int, parts: list[Part]) -> History:
    """Accepted and refused calls on a tree, each part between accepted ones."""
    caller, calls = Caller(tree, seed), []
    for part in parts:
        calls += [*part(caller), caller.replace(), caller.push(*caller.spread(2))]
    return History(tree, calls)


def short_lists() -> Iterator[History]:
    """T, and each width and node size: two heights of each, the smaller ones in turn."""
    yield history(replace(tree_t(), places=2), 0, MORE_PARTS)
    for i, (t, l) in enumerate(SIZES):
        heights = tree_heights(t, l)
        parts = PARTS if i else MORE_PARTS
        for h in sorted({heights[i % len(heights)], min(heights[-1], 2)}):
            yield history(seeded_tree(t, l, h, 2, h % 2, 40 + i), 100 * i + h, parts)


# Places that have nodes above them in common.


def neighbours(caller: Caller) -> list[int]:
    """Two places side by side in a drawn row."""
    row = caller.under(1)
    at = next(caller.drawn) % max(len(row) - 1, 1)
    return row[at : at + 2]


def border(caller: Caller) -> list[int]:
    """Two places side by side, under different nodes up to the root: the first place under the
    last node below the root, and the one before it."""
    first = caller.places - caller.places // caller.arity
    return [first, first - 1] if caller.height else [0]


def ends(caller: Caller) -> list[int]:
    """The last place and the first."""
    return sorted({0, caller.places - 1}, reverse=True)


def subtree(caller: Caller, most: int) -> list[int]:
    """The places under a drawn node below the root, of the highest level that has at most so many
    under a node."""
    levels = range(max(caller.height, 1))
    return caller.under(max(level for level in levels if caller.arity**level <= most))


def shared_nodes(caller: Caller) -> Iterator[Push]:
    """Neighbours, no place, a whole row and a whole subtree, a place of each row under a node, and
    drawn places."""
    yield caller.push(*neighbours(caller)[::-1])
    yield caller.push(*border(caller))
    yield caller.push(*ends(caller))
    yield caller.push()
    yield caller.push(*caller.shuffled(caller.under(1)))
    yield caller.push(*caller.shuffled(subtree(caller, 6 * caller.arity)))
    yield caller.push(*caller.under(2)[1 :: caller.arity])
    yield caller.push(*caller.spread(5))


def one_leaf(caller: Caller) -> Iterator[Push]:
    """No record and one, in a tree of one place."""
    yield caller.push()
    yield caller.push(0)


def shared_lists() -> Iterator[History]:
    """Each width and node size with its largest height, and with height 0."""
    for i, (t, l) in enumerate(SIZES):
        for h, part in ((tree_heights(t, l)[-1], shared_nodes), (0, one_leaf)):
            tree = replace(seeded_tree(t, l, h, 2, i % 2, 50 + i), places=1)
            yield History(tree, [*part(Caller(tree, 1000 + i))])


# Long lists. The library compares the places of up to 128 records with each other, and finds one
# that is repeated among more by a map; the program has room for the last length.

LENGTHS = [127, 128, 129, MOST]
LONG_TREES = [(8, 1, 3), (4, 1, 4), (8, 1, 3), (8, 2, 4), (12, 2, 3)]

Order = Callable[[list[int]], list[int]]
Pair = tuple[int, int]


def falling(places: list[int]) -> list[int]:
    """From the last place down."""
    return sorted(places, reverse=True)


# Rising, falling, and as drawn.
ORDERS: list[Order] = [sorted, falling, list]


def pairs(count: int) -> list[Pair]:
    """Two of so many records: the first and the last, two of the first 128, the last two, and one
    of the first 128 with a later one."""
    within = [(0, count - 1), (count // 4, 99), (count - 2, count - 1)]
    return within if count <= 128 else [*within, (count // 4, (count + 128) // 2)]


def edges(places: int) -> list[int]:
    """The first place, those beside multiples of 64, and the last."""
    return [n for n in (0, 63, 64, 127, 128) if n < places - 1] + [places - 1]


def long_places(caller: Caller, count: int, order: Order) -> list[int]:
    """So many places in an order, each once."""
    return order(caller.spread(count, *edges(caller.places)))


def exchanged(places: list[int], at: int, place: int) -> list[int]:
    """The places with this one there, and what was there where this one was."""
    made = list(places)
    made[places.index(place)], made[at] = places[at], place
    return made


def paired(places: list[int], pair: Pair) -> list[int]:
    """The places but that the pair's second record has the first one's."""
    one, other = pair
    return [*places[:other], places[one], *places[other + 1 :]]


def long_push(count: int, order: Order, pair: Pair | None, turn: int) -> Part:
    """A push of a long list. As drawn, the place of a pair is one of the edges in turn."""

    def part(caller: Caller) -> Iterator[Push]:
        places = long_places(caller, count, order)
        if pair is None:
            yield caller.push(*places)
            return
        if order is list:
            places = exchanged(places, pair[0], edges(caller.places)[turn])
        yield caller.push(*paired(places, pair), refusal=17)

    return part


def long_pushes() -> list[Part]:
    """Every length in every order, and by turns with these the lengths with their pairs, the
    shortest with one of them and the others with each."""
    whole = [(count, order, None) for count, order in product(LENGTHS, ORDERS)]
    both = [(LENGTHS[0], pairs(LENGTHS[0])[0])]
    both += [(count, pair) for count in LENGTHS[1:] for pair in pairs(count)]
    twice = [(count, ORDERS[i % 3], pair) for i, (count, pair) in enumerate(both)]
    turns = [one for pair in zip_longest(whole, twice) for one in pair if one]
    return [long_push(*one, i // len(LONG_TREES)) for i, one in enumerate(turns)]


def bad_last(caller: Caller) -> Iterator[Push]:
    """A long list whose last place is none."""
    places = long_places(caller, 128, falling)
    yield caller.push(*places, caller.places, refusal=11)


def all_places(caller: Caller) -> Iterator[Push]:
    """Every place of a tree, and then one of them again."""
    places = caller.spread(caller.places)
    yield caller.push(*places)
    yield caller.push(*places, caller.places - 1, refusal=17)


def long_lists() -> Iterator[History]:
    """Each tree with its share of the pushes; and trees of 128 and of 16 places."""
    parts = long_pushes()
    for i, (t, l, h) in enumerate(LONG_TREES):
        yield long_history((t, l, h), i, parts[i :: len(LONG_TREES)])
    yield long_history((8, 4, 7), 10, [bad_last, all_places])
    yield long_history((12, 3, 2), 11, [all_places])


def long_history(shape: tuple[int, int, int], seed: int, parts: list[Part]) -> History:
    """Pushes on a tree, and a replacement after each part. The first 16 places are asked for."""
    tree = replace(seeded_tree(*shape, 2, seed % 2, 60 + seed), places=16)
    caller = Caller(tree, 2000 + seed)
    calls = [call for part in parts for call in (*part(caller), caller.replace())]
    return History(tree, calls)


def histories() -> Iterator[History]:
    """All of them."""
    yield from short_lists()
    yield from shared_lists()
    yield from long_lists()


def lines() -> list[str]:
    """Every line of the input."""
    return counted([one.line() for one in histories()])


if __name__ == "__main__":
    for line in lines():
        print(line)
