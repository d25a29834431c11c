"""The leaf of a file (docs/RULES.md, 7.7 to 7.11): a blob, padded, packed, absorbed.

The functions above the entry take contents that are not refused, and words of
an accepted set. The entry tests what it is handed and answers ("words", list)
or ("refused", r).
"""

from collections.abc import Sequence

from matrices import Words
from parameters import ParameterSet, refusal_of_set
from poseidon2 import add, cut, permutation

# How many bytes a word takes: b (Rules 7.8).
WORD_BYTES = 7
MOST_CONTENTS = 4294967295


def message(contents: Sequence[int]) -> bytes:
    """What Git calls a blob: its head and the contents (Rules 7.7)."""
    return b"blob %d\0" % len(contents) + bytes(contents)


def padded(data: bytes, multiple: int) -> bytes:
    """A byte 01, and zeros up to the next multiple (Rules 7.8)."""
    marked = data + b"\x01"
    return marked + bytes(-len(marked) % multiple)


def packed(data: bytes) -> Words:
    """The numbers of the bytes, b for each, the lowest first (Rules 7.9)."""
    starts = range(0, len(data), WORD_BYTES)
    return [int.from_bytes(data[i : i + WORD_BYTES], "little") for i in starts]


def file_words(contents: Sequence[int], block_size: int) -> Words:
    """A file's words, for message blocks of this many words (Rules 7.9)."""
    return packed(padded(message(contents), WORD_BYTES * block_size))


def file_leaf(s: ParameterSet, contents: Sequence[int]) -> Words:
    """Each message block added to the state, then the permutation (Rules 7.10)."""
    size = s.width - s.node_size
    state = [0] * s.width
    for block in cut(file_words(contents, size), size):
        state = permutation(s, add(state[:size], block) + state[size:])
    return state[: s.node_size]


def refusal_of_file(
    s: ParameterSet, leaf_length: int, contents_length: int
) -> int | None:
    """The first refusal that applies to a set and these lengths, or None."""
    number = refusal_of_set(s)
    if number is not None:
        return number
    if leaf_length != s.node_size:
        return 10
    if contents_length > MOST_CONTENTS:
        return 16
    return None


def leaf_of_file(
    s: ParameterSet, contents: Sequence[int], leaf_length: int
) -> tuple[str, Words | int]:
    """The leaf of a file, for a leaf's buffer of this length (Rules 7.11)."""
    number = refusal_of_file(s, leaf_length, len(contents))
    if number is not None:
        return ("refused", number)
    return ("words", file_leaf(s, contents))
