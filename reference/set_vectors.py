"""Prints what the program `set_vectors` must print, worked out by this reference.

The program's input is what set_cases.py makes, and each of its lines gives one.
By the first number of the line that asks for it, this is

    1    T L H F R validate A
    2    T L H F R CALLS permute B unpermute B compress B
    3    T L H F R exchange_diagonal M A
    4    T L H F R exchange_height X A

where T L H F R are the five numbers that were handed in, M is how many numbers the
D has that is exchanged for, and X is the h. CALLS is

    sizes S build B root B storeless_root B open B verify V

as in the section trees that tree_vectors.py describes, for a call of each entry. B
is the digest of the buffer that an entry wrote to, or `refused N kept`. A is one of

    accepted DIGEST kept E E E E E E E E E E E E K
    refused N DIGEST

where N is the refusal's number, and DIGEST the digest, as vectors.py has it, of all
238 numbers of the set in the answer, in this order: the five, the 12 places for D,
the 208 for C, the 12 kept inverses E of D, and the kept inverse K of 1 plus their
sum. After a refusal there is no set, and zeros are in its place.
"""

import poseidon2
import set_cases
from cases import LIST_DIAGONAL_PLACES
from parameters import ParameterSet, all_numbers, exchange_diagonal, exchange_height, validate
from set_cases import DiagonalExchange, Entries, HeightExchange, Line, Validation
from tree_cases import TREE_PLACES
from tree_vectors import calls_line, written
from vectors import Called, as_digest, case_line, digest, in_place

SET_NUMBERS = 238


def answered(kind: str, answer: ParameterSet | int) -> str:
    """What validation and exchanges answer."""
    if kind == "refused":
        return f"refused {answer} {digest([0] * SET_NUMBERS)}"
    kept = " ".join(map(str, [*answer.inverses, answer.total_inverse]))
    return f"accepted {digest(all_numbers(answer))} kept {kept}"


def states_of(entries: Entries) -> list[Called]:
    """What permute, unpermute and compress answer."""
    s = entries.case.handed()
    state, node = (entries.lists[name].numbers(TREE_PLACES) for name in ("state", "node"))
    kind, answer = poseidon2.compress(s, state, len(node))
    return [
        in_place(poseidon2.permute, s, state),
        in_place(poseidon2.unpermute, s, state),
        (None, answer) if kind == "words" else (answer, node),
    ]


def entries_line(entries: Entries) -> str:
    """The line of a call of each entry."""
    names = ["permute", "unpermute", "compress"]
    parts = [f"{name} {as_digest(one)}" for name, one in zip(names, states_of(entries))]
    return " ".join([calls_line(entries), *parts])


def line_of(line: Line) -> str:
    """The line that answers one."""
    if isinstance(line, Entries):
        return entries_line(line)
    if isinstance(line, Validation):
        return case_line(line.case, "validate", answered(*validate(*line.case.validated())))
    s = line.case.handed()
    if isinstance(line, DiagonalExchange):
        diagonal = line.diagonal.numbers(LIST_DIAGONAL_PLACES)
        answer = answered(*exchange_diagonal(s, diagonal))
        return case_line(line.case, "exchange_diagonal", str(len(diagonal)), answer)
    answer = answered(*exchange_height(s, line.height))
    return case_line(line.case, "exchange_height", str(line.height), answer)


if __name__ == "__main__":
    for line in set_cases.all_lines():
        print(line_of(line))
