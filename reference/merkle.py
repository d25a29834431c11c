"""The trees (docs/RULES.md, 4 to 6 and 7.4): stores, openings, verdicts, replacements,
pushes, extraction, and the leaf book.

Leaves, stores, openings and rows are plain flat lists of words. An entry
answers a pair: ("refused", r) with the number r of the first refusal that
applies, after which every list is as it was, or what its docstring says.
A record is a pair (place, six words).
"""

from field import all_words
from parameters import ParameterSet, arity, leaf_count, refusal_of_set
from poseidon2 import compression, cut

Words = list[int]
Record = tuple[int, Words]
Answer = tuple[str, object]

MOST_RECORDS = 2**32


# Where things are in a store (Rules 4.2, 4.4).


def level_nodes(s: ParameterSet, level: int) -> int:
    """Level j has k^(h - j) nodes."""
    return arity(s) ** (s.height - level)


def node_start(s: ParameterSet, level: int, index: int) -> int:
    """The place in the store of the first word of a level's node."""
    below = sum(level_nodes(s, j) for j in range(level))
    return (below + index) * s.node_size


def leaves_length(s: ParameterSet) -> int:
    """The words of all leaves."""
    return leaf_count(s) * s.node_size


def store_length(s: ParameterSet) -> int:
    """The words of a store: up to the root, and the root's own."""
    return node_start(s, s.height, 0) + s.node_size


def siblings_length(s: ParameterSet) -> int:
    """The words of an opening: k - 1 siblings at each level below the root."""
    return s.height * (arity(s) - 1) * s.node_size


def sizes(s: ParameterSet) -> Answer:
    """A tree's sizes (Rules 4.2, 4.4, 4.7): ("sizes", [leaves, store, opening])."""
    number = refusal_of_set(s)
    if number is not None:
        return ("refused", number)
    return ("sizes", [leaves_length(s), store_length(s), siblings_length(s)])


def is_place(s: ParameterSet, place: int) -> bool:
    """Whether there is a leaf at this place."""
    return 0 <= place < leaf_count(s)


# Building and the root.


def levels(s: ParameterSet, leaves: Words) -> list[Words]:
    """All levels, each the compressions of the rows below it (Rules 4.3)."""
    made = [list(leaves)]
    for _ in range(s.height):
        rows = cut(made[-1], s.width)
        made.append([word for row in rows for word in compression(s, row)])
    return made


def build(s: ParameterSet, leaves: Words, store: Words) -> Answer:
    """Building (Rules 4.5): ("done", None)."""
    number = refusal_of_set(s)
    if number is not None:
        return ("refused", number)
    if len(leaves) != leaves_length(s) or len(store) != store_length(s):
        return ("refused", 10)
    if not all_words(leaves):
        return ("refused", 12)
    store[:] = [word for level in levels(s, leaves) for word in level]
    return ("done", None)


def root(s: ParameterSet, store: Words) -> Answer:
    """The root that a store ends with (Rules 4.6): ("words", root)."""
    number = refusal_of_set(s)
    if number is not None:
        return ("refused", number)
    if len(store) != store_length(s):
        return ("refused", 10)
    last = store[-s.node_size :]
    if not all_words(last):
        return ("refused", 12)
    return ("words", last)


def node_from_leaves(s: ParameterSet, leaves: Words, level: int, index: int) -> Words:
    """A leaf, or the compression of a row (Rules 7.4)."""
    if level == 0:
        return leaves[index * s.node_size : (index + 1) * s.node_size]
    return compression(s, row_from_leaves(s, leaves, level, index, arity(s)))


def row_from_leaves(
    s: ParameterSet, leaves: Words, level: int, index: int, children: int
) -> Words:
    """The first few children of a node, one after another; all of them are a row."""
    if children == 0:
        return []
    before = row_from_leaves(s, leaves, level, index, children - 1)
    last = arity(s) * index + children - 1
    return before + node_from_leaves(s, leaves, level - 1, last)


def storeless_root(s: ParameterSet, leaves: Words) -> Answer:
    """The root of the leaves, without a store: ("words", root)."""
    number = refusal_of_set(s)
    if number is not None:
        return ("refused", number)
    if len(leaves) != leaves_length(s):
        return ("refused", 10)
    if not all_words(leaves):
        return ("refused", 12)
    return ("words", node_from_leaves(s, leaves, s.height, 0))


# Openings and verdicts.


def place_in_row(s: ParameterSet, place: int, level: int) -> int:
    """The position in its row of the level's node over a place (Rules 4.8)."""
    return place // arity(s) ** level % arity(s)


def stored_row(s: ParameterSet, store: Words, level: int, index: int) -> Words:
    """The k nodes of a level that node i of the level above compresses."""
    start = node_start(s, level, arity(s) * index)
    return store[start : start + s.width]


def stored_siblings(s: ParameterSet, store: Words, place: int) -> Words:
    """The siblings at each level, from the store (Rules 4.7)."""
    siblings = []
    for level in range(s.height):
        index = place // arity(s) ** level
        row = stored_row(s, store, level, index // arity(s))
        own = place_in_row(s, place, level) * s.node_size
        siblings += row[:own] + row[own + s.node_size :]
    return siblings


def opening(s: ParameterSet, store: Words, place: int, siblings: Words) -> Answer:
    """The opening of a place is written to the list of siblings: ("done", None)."""
    number = refusal_of_set(s)
    if number is not None:
        return ("refused", number)
    if len(store) != store_length(s) or len(siblings) != siblings_length(s):
        return ("refused", 10)
    if not is_place(s, place):
        return ("refused", 11)
    copied = stored_siblings(s, store, place)
    if not all_words(copied):
        return ("refused", 12)
    siblings[:] = copied
    return ("done", None)


def level_part(s: ParameterSet, siblings: Words, level: int) -> Words:
    """The part of an opening for one level: k - 1 nodes."""
    size = s.width - s.node_size
    return siblings[level * size : (level + 1) * size]


def read_opening(s: ParameterSet, siblings: Words, level: int) -> Answer:
    """The opening reader (Rules 4.9): ("words", part)."""
    number = refusal_of_set(s)
    if number is not None:
        return ("refused", number)
    if len(siblings) != siblings_length(s):
        return ("refused", 10)
    if not 0 <= level < s.height:
        return ("refused", 11)
    part = level_part(s, siblings, level)
    if not all_words(part):
        return ("refused", 12)
    return ("words", part)


def verdict_rows(
    s: ParameterSet, place: int, leaf: Words, siblings: Words
) -> tuple[list[Words], Words]:
    """The path of a leaf (Rules 4.10): its rows, and the node that it ends in."""
    rows = []
    node = leaf
    for level in range(s.height):
        part = level_part(s, siblings, level)
        own = place_in_row(s, place, level) * s.node_size
        rows.append(part[:own] + node + part[own:])
        node = compression(s, rows[-1])
    return (rows, node)


def verify(
    s: ParameterSet, root: Words, place: int, leaf: Words, siblings: Words
) -> Answer:
    """The verdict (Rules 4.11): ("accepted", None) or ("rejected", None)."""
    number = refusal_of_set(s)
    if number is not None:
        return ("refused", number)
    if len(root) != s.node_size or len(leaf) != s.node_size:
        return ("refused", 10)
    if len(siblings) != siblings_length(s):
        return ("refused", 10)
    if not is_place(s, place):
        return ("refused", 11)
    if not all_words(root + leaf + siblings):
        return ("refused", 12)
    _, end = verdict_rows(s, place, leaf, siblings)
    return ("accepted" if end == root else "rejected", None)


# Replacement and push.


def write_node(
    s: ParameterSet, store: Words, level: int, index: int, count: int
) -> int:
    """One node rewritten from the row below it; the count goes up by one (Rules 5.1)."""
    start = node_start(s, level, index)
    row = stored_row(s, store, level - 1, index)
    store[start : start + s.node_size] = compression(s, row)
    return count + 1


def write_leaf(s: ParameterSet, store: Words, place: int, leaf: Words) -> None:
    """A leaf written at its place."""
    start = node_start(s, 0, place)
    store[start : start + s.node_size] = leaf


def write_path(s: ParameterSet, store: Words, place: int, leaf: Words) -> int:
    """A leaf written, and every node on the way to the root; the count of these nodes."""
    write_leaf(s, store, place, leaf)
    count = 0
    for level in range(1, s.height + 1):
        count = write_node(s, store, level, place // arity(s) ** level, count)
    return count


def replace(s: ParameterSet, store: Words, place: int, leaf: Words) -> Answer:
    """A replacement (Rules 5.2): ("count", n)."""
    number = refusal_of_set(s)
    if number is not None:
        return ("refused", number)
    if len(store) != store_length(s) or len(leaf) != s.node_size:
        return ("refused", 10)
    if not is_place(s, place):
        return ("refused", 11)
    if not all_words(leaf + stored_siblings(s, store, place)):
        return ("refused", 12)
    return ("count", write_path(s, store, place, leaf))


def record_leaf(s: ParameterSet, record: Record) -> Words:
    """A record's leaf (Rules 5.3)."""
    _, words = record
    return words[: s.node_size]


def repeats_place(records: list[Record]) -> bool:
    """Whether two records have the same place, so that there are fewer places (Rules 5.4)."""
    return len({place for place, _ in records}) < len(records)


def nodes_above(s: ParameterSet, records: list[Record], level: int) -> set[int]:
    """The numbers of a level's nodes above the records' places, each once (Rules 5.4)."""
    return {place // arity(s) ** level for place, _ in records}


def write_records(s: ParameterSet, store: Words, records: list[Record]) -> int:
    """All leaves written, and then, level by level, each node above one of them; the count of
    these nodes."""
    for record in records:
        write_leaf(s, store, record[0], record_leaf(s, record))
    count = 0
    for level in range(1, s.height + 1):
        for index in nodes_above(s, records, level):
            count = write_node(s, store, level, index, count)
    return count


def push(s: ParameterSet, store: Words, records: list[Record]) -> Answer:
    """A push (Rules 5.4): ("count", n)."""
    number = refusal_of_set(s)
    if number is not None:
        return ("refused", number)
    if len(store) != store_length(s) or len(records) > MOST_RECORDS:
        return ("refused", 10)
    if not all(is_place(s, place) for place, _ in records):
        return ("refused", 11)
    if not all(all_words(record_leaf(s, record)) for record in records):
        return ("refused", 12)
    if not all_words(store):
        return ("refused", 12)
    if repeats_place(records):
        return ("refused", 17)
    return ("count", write_records(s, store, records))


# Extraction.


def extract(
    s: ParameterSet,
    root: Words,
    place: int,
    first_leaf: Words,
    first_siblings: Words,
    second_leaf: Words,
    second_siblings: Words,
    first_row: Words,
    second_row: Words,
) -> Answer:
    """The lowest level where the leaves' rows collide (Rules 5.7): ("level", j)."""
    number = refusal_of_set(s)
    if number is not None:
        return ("refused", number)
    if any(len(node) != s.node_size for node in (root, first_leaf, second_leaf)):
        return ("refused", 10)
    if any(len(o) != siblings_length(s) for o in (first_siblings, second_siblings)):
        return ("refused", 10)
    if len(first_row) != s.width or len(second_row) != s.width:
        return ("refused", 10)
    if not is_place(s, place):
        return ("refused", 11)
    leaves = first_leaf + second_leaf
    if not all_words(root + leaves + first_siblings + second_siblings):
        return ("refused", 12)
    if first_leaf == second_leaf:
        return ("refused", 15)
    first_rows, first_end = verdict_rows(s, place, first_leaf, first_siblings)
    second_rows, second_end = verdict_rows(s, place, second_leaf, second_siblings)
    if first_end != root or second_end != root:
        return ("refused", 14)
    level = colliding_level(s, first_rows, second_rows)
    first_row[:] = first_rows[level]
    second_row[:] = second_rows[level]
    return ("level", level)


def colliding_level(
    s: ParameterSet, first_rows: list[Words], second_rows: list[Words]
) -> int:
    """There is one: the leaves differ and the ends don't, so a row loses a difference."""
    return next(
        level
        for level, (a, b) in enumerate(zip(first_rows, second_rows))
        if a != b and compression(s, a) == compression(s, b)
    )


# The leaf book (Rules 6.3 to 6.6), a list of leaves. None of these functions is
# handed a store.


def open_book(s: ParameterSet, leaves: Words) -> list[Words]:
    """The book at the beginning, of the leaves that building gets."""
    return cut(list(leaves), s.node_size)


def book_leaves(book: list[Words]) -> Words:
    """The book's leaves as the list that building takes."""
    return [word for leaf in book for word in leaf]


def book_replace(
    s: ParameterSet, book: list[Words], place: int, leaf: Words
) -> Answer:
    """A replacement in the book (Rules 6.4)."""
    if len(leaf) != s.node_size:
        return ("refused", 10)
    if not is_place(s, place):
        return ("refused", 11)
    if not all_words(leaf):
        return ("refused", 12)
    book[place] = list(leaf)
    return ("count", s.height)


def book_push(s: ParameterSet, book: list[Words], records: list[Record]) -> Answer:
    """A push in the book (Rules 6.5)."""
    if len(records) > MOST_RECORDS:
        return ("refused", 10)
    if not all(is_place(s, place) for place, _ in records):
        return ("refused", 11)
    if not all(all_words(record_leaf(s, record)) for record in records):
        return ("refused", 12)
    if repeats_place(records):
        return ("refused", 17)
    for record in records:
        book[record[0]] = list(record_leaf(s, record))
    above = [nodes_above(s, records, level) for level in range(1, s.height + 1)]
    return ("count", sum(map(len, above)))
