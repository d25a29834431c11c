"""Prints what the program `vectors` must print, worked out by this reference.

The output is lines of plain text, each ended by one newline (also the last).
Numbers are in decimal without leading zeros or signs. The parts of a line are
separated by one space, and no line begins or ends with a space. There are no
empty lines. Throughout, p = 18446744069414584321.

The output is sections one after another, in the order given here. Each begins
with a header line: the word `section`, and the section's name.

SECTION field

Its header line is `section field`; field_vectors.py describes and makes it.

The other sections are driven by the program's input, which cases.py makes and
whose grammar its docstring gives: a line of the input is a line of the output.
A call that is refused is printed as ` refused N`, where N is the refusal's
number. The digest of a list of numbers starts with d = 1 and does, for each
number x in order, d = 31 * d + x modulo 2^64.

SECTION sets

Its header line is `section sets`. The line of a case is one of

    T L H F R validate accepted DIGEST
    T L H F R validate refused N

where T L H F R are the five numbers that were handed in, and DIGEST is the
digest of what the answered set holds but its kept values: its five numbers, its
12 places for D and its 208 for C.

SECTION states

Its header line is `section states`. The set is handed to the entries as the
input has it, validated or not. A buffer that an entry was to write to is given
as it is after the call; after a refusal it is compared with what it held
before, and `kept` or `changed` is printed. The lines are

    T L H F R permute A unpermute B compress C             in full
    T L H F R permute A unpermute B compress C back        as digests

where A is permute's answer for the state and C is compress's. B is unpermute's
answer: in full, for what permute left; as digests, for the state. Each is one of

    = W W ...                 in full: the buffer's numbers
    DIGEST                    as digests: the digest of the buffer's numbers
    refused N kept            or refused N changed

The last word is `back` where unpermute of what permute left is the state and
permute of what unpermute left is the state (so also where they are refused and
leave the state), otherwise `lost`.
"""

import signal
from collections.abc import Callable, Iterator

import cases
import poseidon2
from cases import Case
from field_vectors import field_section
from parameters import ParameterSet, five_numbers, validate


def digest(numbers: list[int]) -> int:
    """The digest of a list of numbers."""
    d = 1
    for x in numbers:
        d = (31 * d + x) % 2**64
    return d


def digest_of_set(s: ParameterSet) -> int:
    """The digest of all that a set holds but its kept values."""
    return digest(five_numbers(s) + s.diagonal + s.constants)


def case_line(case: Case, *parts: str) -> str:
    """A line that begins with the five numbers."""
    return " ".join([*map(str, case.five()), *parts])


def sets_section() -> Iterator[str]:
    """Section sets."""
    for _, case in cases.sets_cases():
        kind, answer = validate(*case.validated())
        if kind == "set":
            yield case_line(case, "validate", "accepted", str(digest_of_set(answer)))
        else:
            yield case_line(case, "validate", "refused", str(answer))


# An entry's answer and the buffer after the call: a refusal's number, or None.
Called = tuple[int | None, list[int]]


def in_place(entry: Callable, s: ParameterSet, state: list[int]) -> Called:
    """An entry that works in place; a refusal leaves the buffer as it was."""
    kind, answer = entry(s, state)
    return (None, answer) if kind == "words" else (answer, state)


def to_node(s: ParameterSet, state: list[int], length: int) -> Called:
    """Compression to a node that holds sevens; a refusal leaves it as it was."""
    kind, answer = poseidon2.compress(s, state, length)
    return (None, answer) if kind == "words" else (answer, [7] * length)


def in_full(called: Called) -> str:
    """The buffer's numbers, or the refusal."""
    number, buffer = called
    return " ".join(["=", *map(str, buffer)]) if number is None else f"refused {number} kept"


def as_digest(called: Called) -> str:
    """The digest of the buffer's numbers, or the refusal."""
    number, buffer = called
    return str(digest(buffer)) if number is None else f"refused {number} kept"


def states_line(what: int, case: Case) -> str:
    """The three entries' answers, and as digests whether the first two undo each other."""
    s, state = case.handed(), case.state.numbers(cases.STATE_PLACES)
    permuted = in_place(poseidon2.permute, s, state)
    unpermuted = in_place(poseidon2.unpermute, s, state)
    undone = in_place(poseidon2.unpermute, s, permuted[1])
    redone = in_place(poseidon2.permute, s, unpermuted[1])
    node = to_node(s, state, case.node)
    if what == cases.IN_FULL:
        a, b, c = in_full(permuted), in_full(undone), in_full(node)
        return case_line(case, "permute", a, "unpermute", b, "compress", c)
    a, b, c = as_digest(permuted), as_digest(unpermuted), as_digest(node)
    back = "back" if undone[1] == redone[1] == state else "lost"
    return case_line(case, "permute", a, "unpermute", b, "compress", c, back)


def states_section() -> Iterator[str]:
    """Section states."""
    for what, case in cases.states_cases():
        yield states_line(what, case)


Section = tuple[str, Callable[[], Iterator[str]]]

# A later section is one more function here, and its description above.
SECTIONS = [
    ("field", field_section),
    ("sets", sets_section),
    ("states", states_section),
]


def print_sections(sections: list[Section]) -> None:
    """Every line of a program's output."""
    # End quietly when the reader of the output has had enough of it.
    signal.signal(signal.SIGPIPE, signal.SIG_DFL)
    for name, section in sections:
        print(f"section {name}")
        for line in section():
            print(line)


if __name__ == "__main__":
    print_sections(SECTIONS)
