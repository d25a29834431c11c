"""The permutation, its inverse and compression (docs/RULES.md, 3, 4.1, 7.2, 7.3).

The halves of M_E (3.10) stand beside it and are no part of the permutation
here: the library makes M_E by them, and the two are compared.

The functions above the entries take words of an accepted set. The entries
(permute, unpermute, compress) test what they are handed and answer
("words", list) or ("refused", r); they change none of the lists.
"""

from typing import Callable

from field import P, SEVENTH_ROOT_EXPONENT, all_words
from matrices import Matrix, Words, inverse_matrix, matrix_of, times
from parameters import ParameterSet, refusal_of_set, used_constants, used_diagonal

M4 = [
    [5, 7, 1, 3],
    [4, 6, 1, 1],
    [1, 3, 5, 7],
    [1, 1, 4, 6],
]


def add(left: Words, right: Words) -> Words:
    """Words added word by word."""
    return [(a + b) % P for a, b in zip(left, right)]


def subtract(left: Words, right: Words) -> Words:
    """Words subtracted word by word."""
    return [(a - b) % P for a, b in zip(left, right)]


def external_layer(state: Words) -> Words:
    """M_E: M4 of every block; of several, each gets the sum of all (Rules 3.3)."""
    blocks = [times(M4, state[i : i + 4]) for i in range(0, len(state), 4)]
    if len(blocks) == 1:
        return blocks[0]
    total = [sum(words) for words in zip(*blocks)]
    return [word for block in blocks for word in add(block, total)]


def sums(state: Words) -> Words:
    """To each block the sum of all; a block alone stays (Rules 3.10)."""
    if len(state) == 4:
        return list(state)
    return [(word + sum(state[i % 4 :: 4])) % P for i, word in enumerate(state)]


def m4_blocks(state: Words) -> Words:
    """M4 of every block (Rules 3.10)."""
    return [word for i in range(0, len(state), 4) for word in times(M4, state[i : i + 4])]


def internal_layer(diagonal: Words, state: Words) -> Words:
    """M_I: each word times its D_i, plus the words' sum (Rules 3.4)."""
    total = sum(state)
    return [(total + d * word) % P for d, word in zip(diagonal, state)]


def full_round(constants: Words, state: Words) -> Words:
    """Constants added, every word to the power 7, M_E (Rules 3.5)."""
    return external_layer([pow(word, 7, P) for word in add(state, constants)])


def partial_round(constant: int, diagonal: Words, state: Words) -> Words:
    """Word 0 plus its constant, to the power 7, then M_I (Rules 3.6)."""
    raised = pow(state[0] + constant, 7, P)
    return internal_layer(diagonal, [raised] + state[1:])


def round_constants(s: ParameterSet) -> tuple[Matrix, Words, Matrix]:
    """C cut up by its use (Rules 3.8)."""
    constants = used_constants(s)
    half = s.width * (s.full_rounds // 2)
    first = constants[:half]
    partial = constants[half : half + s.partial_rounds]
    second = constants[half + s.partial_rounds :]
    return (cut(first, s.width), partial, cut(second, s.width))


def cut(words: Words, size: int) -> Matrix:
    """The words cut into parts of equal size."""
    return [words[i : i + size] for i in range(0, len(words), size)]


Work = Callable[[ParameterSet, Words], Words]


def remembered(work: Work) -> Work:
    """The same function, with its last results kept: most of them are soon asked for again."""
    results: dict[tuple, Words] = {}

    def recalled(s: ParameterSet, words: Words) -> Words:
        numbers = (s.width, s.full_rounds, s.partial_rounds)
        key = (*numbers, *used_diagonal(s), *used_constants(s), *words)
        if key not in results:
            if len(results) == 1000:
                results.clear()
            results[key] = work(s, words)
        return list(results[key])

    return recalled


@remembered
def permutation(s: ParameterSet, state: Words) -> Words:
    """M_E, then full, partial and again full rounds (Rules 3.7)."""
    first, partial, second = round_constants(s)
    state = external_layer(state)
    for constants in first:
        state = full_round(constants, state)
    for constant in partial:
        state = partial_round(constant, used_diagonal(s), state)
    for constants in second:
        state = full_round(constants, state)
    return state


def compression(s: ParameterSet, x: Words) -> Words:
    """x added to its permutation, and l words of that (Rules 4.1)."""
    return add(permutation(s, x), x)[: s.node_size]


# The inverse permutation undoes each step in the opposite order. The inverse
# of a linear layer is found by elimination on its full t by t matrix.


def undo_full_round(constants: Words, external_inverse: Matrix, state: Words) -> Words:
    """A full round undone: M_E's inverse, every seventh root, constants off."""
    raised = times(external_inverse, state)
    return subtract([pow(word, SEVENTH_ROOT_EXPONENT, P) for word in raised], constants)


def undo_partial_round(constant: int, internal_inverse: Matrix, state: Words) -> Words:
    """A partial round undone: M_I's inverse, word 0's seventh root, constant off."""
    raised = times(internal_inverse, state)
    word = (pow(raised[0], SEVENTH_ROOT_EXPONENT, P) - constant) % P
    return [word] + raised[1:]


def inverse_permutation(s: ParameterSet, state: Words) -> Words:
    """The permutation undone, the last step first (Rules 7.2)."""
    first, partial, second = round_constants(s)
    diagonal = used_diagonal(s)
    external_inverse = inverse_matrix(matrix_of(external_layer, s.width))
    internal_inverse = inverse_matrix(
        matrix_of(lambda words: internal_layer(diagonal, words), s.width)
    )
    for constants in reversed(second):
        state = undo_full_round(constants, external_inverse, state)
    for constant in reversed(partial):
        state = undo_partial_round(constant, internal_inverse, state)
    for constants in reversed(first):
        state = undo_full_round(constants, external_inverse, state)
    return times(external_inverse, state)


def refusal_of_state(s: ParameterSet, state: Words) -> int | None:
    """The first refusal that applies to a set and a state handed in, or None."""
    number = refusal_of_set(s)
    if number is not None:
        return number
    if len(state) != s.width:
        return 10
    if not all_words(state):
        return 12
    return None


def permute(s: ParameterSet, state: Words) -> tuple[str, Words | int]:
    """The permutation of a state of t words."""
    number = refusal_of_state(s, state)
    if number is not None:
        return ("refused", number)
    return ("words", permutation(s, state))


def unpermute(s: ParameterSet, state: Words) -> tuple[str, Words | int]:
    """The inverse permutation of a state of t words."""
    number = refusal_of_state(s, state)
    if number is not None:
        return ("refused", number)
    return ("words", inverse_permutation(s, state))


def compress(
    s: ParameterSet, state: Words, node_length: int
) -> tuple[str, Words | int]:
    """The compression of t words, for a node's buffer of this length."""
    number = refusal_of_set(s)
    if number is not None:
        return ("refused", number)
    if node_length != s.node_size:
        return ("refused", 10)
    number = refusal_of_state(s, state)
    if number is not None:
        return ("refused", number)
    return ("words", compression(s, state))
