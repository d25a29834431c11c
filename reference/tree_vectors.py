"""Prints what the program `tree_vectors` must print, worked out by this reference.

The output has the form that vectors.py describes, with its digests. Its sections
are driven by the program's input, which tree_cases.py makes.

SECTION trees

Its header line is `section trees`. Sets and buffers are as in the section
states, and an answer A of an entry that writes to a buffer is given as there;
before the call every number of a tree's buffers is 7. A tree is a line, and a
line for each place that is asked for:

    T L H F R sizes S build A root B storeless_root C
    place Q open A verify V damaged X Y

where S is the sizes of the leaves, of a store and of an opening, or `refused N`,
B the root of the built store and C the root of the leaves, both in full. V is
the verdict on that root, the place Q, its leaf (words of 0 where there is none)
and the siblings that open left: `accepted`, `rejected` or `refused N`. Of the
verdicts with one word of root, leaf and siblings replaced by itself plus 1
modulo p, each word in turn, X are accepted and Y rejected. A call of each entry
on the lists that the input holds is a line

    T L H F R sizes S build A root B storeless_root C open D verify V

with digests.

SECTION replacements

Its header line is `section replacements`. A tree is a line, and a line for each
of its replacements, in order on the one store:

    T L H F R build A
    replace Q compressions N DIGEST
    replace Q refused N DIGEST

where A is as in the section trees, Q is the place, and DIGEST is that of the
whole store after the call.

SECTION extractions

Its header line is `section extractions`. The line of a case is one of

    T L H F R extract level J first = W W ... second = W W ...
    T L H F R extract refused N first = W W ... second = W W ...

with the numbers of both row buffers after the call.
"""

from collections.abc import Callable, Iterator

import merkle
import tree_cases
from field import P
from parameters import ParameterSet
from tree_cases import Calls, Extraction, Replacement, Replacements, Tree
from vectors import Called, as_digest, case_line, digest, in_full, print_sections


def written(entry: Callable, s: ParameterSet, *arguments: object) -> Called:
    """An entry that writes to its last argument."""
    *others, before = arguments
    after = list(before)
    kind, number = entry(s, *others, after)
    return (number if kind == "refused" else None, after)


def node_of(entry: Callable, s: ParameterSet, words: list[int], node: list[int]) -> Called:
    """An entry that answers a root, as one that writes it to a node."""
    kind, answer = entry(s, words)
    if kind == "refused" and answer != 12:
        return (answer, node)
    if len(node) != s.node_size:
        return (10, node)
    return (answer, node) if kind == "refused" else (None, answer)


def verdict(kind: str, number: int | None) -> str:
    """A verdict's words."""
    return f"refused {number}" if kind == "refused" else kind


def sized(s: ParameterSet) -> str:
    """The sizes of a tree, or the refusal."""
    kind, answer = merkle.sizes(s)
    return f"refused {answer}" if kind == "refused" else " ".join(map(str, answer))


def damaged_verdicts(s: ParameterSet, place: int, words: list[int]) -> list[str]:
    """The kinds of verdict on a root, a leaf and siblings, each word damaged in turn."""
    l = s.node_size
    kinds = []
    for i, word in enumerate(words):
        other = words[:i] + [(word + 1) % P] + words[i + 1 :]
        kinds.append(merkle.verify(s, other[:l], place, other[l : 2 * l], other[2 * l :])[0])
    return kinds


def tree_lines(what: int, tree: Tree) -> Iterator[str]:
    """A tree's line, and its places'."""
    shown = in_full if what == tree_cases.TREE_IN_FULL else as_digest
    s, leaves = tree.case.handed(), tree.leaves.numbers(tree_cases.TREE_PLACES)
    l = s.node_size
    built = written(merkle.build, s, leaves, [7] * tree.store)
    root = node_of(merkle.root, s, built[1], [7] * l)
    storeless = node_of(merkle.storeless_root, s, leaves, [7] * l)
    parts = ["sizes", sized(s), "build", shown(built), "root", in_full(root)]
    yield case_line(tree.case, *parts, "storeless_root", in_full(storeless))
    for place in range(tree.places):
        opened = written(merkle.opening, s, built[1], place, [7] * tree.siblings)
        leaf = leaves[place * l : (place + 1) * l] or [0] * l
        answer = merkle.verify(s, root[1], place, leaf, opened[1])
        kinds = damaged_verdicts(s, place, root[1] + leaf + opened[1])
        counts = f"{kinds.count('accepted')} {kinds.count('rejected')}"
        yield f"place {place} open {shown(opened)} verify {verdict(*answer)} damaged {counts}"


def calls_of(calls: Calls) -> tuple[list[Called], tuple]:
    """What the five entries answer."""
    s = calls.case.handed()
    leaves, store, siblings, root, leaf = (
        calls.lists[name].numbers(tree_cases.TREE_PLACES) for name in tree_cases.HELD
    )
    written_to = [
        written(merkle.build, s, leaves, store),
        node_of(merkle.root, s, store, root),
        node_of(merkle.storeless_root, s, leaves, root),
        written(merkle.opening, s, store, calls.place, siblings),
    ]
    return (written_to, merkle.verify(s, root, calls.place, leaf, siblings))


def calls_line(calls: Calls) -> str:
    """The line of a call of each entry."""
    called, answer = calls_of(calls)
    names = ["build", "root", "storeless_root", "open"]
    parts = [part for name, one in zip(names, called) for part in (name, as_digest(one))]
    sizes = sized(calls.case.handed())
    return case_line(calls.case, "sizes", sizes, *parts, "verify", verdict(*answer))


def trees_section() -> Iterator[str]:
    """Section trees."""
    for what, case in tree_cases.trees_cases():
        if what == tree_cases.CALLS:
            yield calls_line(case)
        else:
            yield from tree_lines(what, case)


Answer = tuple[str, int | None]


def replaced(s: ParameterSet, call: Replacement, store: list[int]) -> Answer:
    """The answer of a replacement, on a store that it may change."""
    if call.fault:
        store[call.fault - 1] = call.value
    handed = store[: call.store] + [7] * (call.store - len(store))
    answer = merkle.replace(s, handed, call.place, call.leaf.numbers(tree_cases.LEAF_PLACES))
    store[:] = handed[: len(store)] + store[call.store :]
    return answer


def called_in_order(
    replacements: Replacements,
) -> tuple[Called, Iterator[tuple[Answer, list[int]]]]:
    """Building, and each replacement's answer with the store after it."""
    s = replacements.tree.case.handed()
    leaves = replacements.tree.leaves.numbers(tree_cases.TREE_PLACES)
    built = written(merkle.build, s, leaves, [7] * replacements.tree.store)
    store = list(built[1])
    return (built, ((replaced(s, call, store), store) for call in replacements.calls))


def replacements_section() -> Iterator[str]:
    """Section replacements."""
    for _, replacements in tree_cases.replacements_cases():
        built, calls = called_in_order(replacements)
        yield case_line(replacements.tree.case, "build", as_digest(built))
        for call, ((kind, number), store) in zip(replacements.calls, calls):
            said = "refused" if kind == "refused" else "compressions"
            yield f"replace {call.place} {said} {number} {digest(store)}"


def extracted(one: Extraction) -> tuple[Answer, list[int], list[int]]:
    """The answer of an extraction, and both row buffers after it."""
    root, *offers = one.handed()
    rows = [[7] * length for length in one.rows]
    return (merkle.extract(one.case.handed(), root, one.place, *offers, *rows), *rows)


def extractions_section() -> Iterator[str]:
    """Section extractions."""
    for _, one in tree_cases.extractions_cases():
        (kind, number), first, second = extracted(one)
        rows = ["first", in_full((None, first)), "second", in_full((None, second))]
        yield case_line(one.case, "extract", kind, str(number), *rows)


# A later section is one more function here, and its description above.
SECTIONS = [
    ("trees", trees_section),
    ("replacements", replacements_section),
    ("extractions", extractions_section),
]

if __name__ == "__main__":
    print_sections(SECTIONS)
