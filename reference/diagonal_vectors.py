"""Prints what the bindings must answer to the cases of diagonal_cases.py, worked out by this
reference, which goes by the rank of M_I.

A case is one of the lines

    T L H F R permute W ... unpermute W ...
    T L H F R refused N

where the T words after `permute` are the permutation of the state, and those after
`unpermute` its inverse permutation.
"""

import diagonal_cases
import poseidon2
from cases import STATE_PLACES, Case
from vectors import case_line


def diagonal_line(case: Case) -> str:
    """The line of one case."""
    s, state = case.handed(), case.state.numbers(STATE_PLACES)
    kind, answer = poseidon2.permute(s, state)
    if kind == "refused":
        return case_line(case, "refused", str(answer))
    before = poseidon2.inverse_permutation(s, state)
    return case_line(case, "permute", *map(str, answer), "unpermute", *map(str, before))


if __name__ == "__main__":
    for case in diagonal_cases.all_diagonals():
        print(diagonal_line(case))
