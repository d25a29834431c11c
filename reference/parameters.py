"""The parameter set, its validation, and exchanges of D and of h (docs/RULES.md, section 2).

Refusals 1 to 9 are tested by rising number, so the first that applies is the lowest. 18 comes
after them, and before all others.
"""

from collections.abc import Sequence
from dataclasses import dataclass
from functools import lru_cache

from field import P, is_word
from matrices import Matrix, rank

DIAGONAL_PLACES = 12
CONSTANT_PLACES = 208


@dataclass
class ParameterSet:
    """The five numbers, 12 places for D and 208 for C (Rules 2.1, 2.5); and the kept values, 12
    places for the inverses of D and the inverse of 1 plus their sum (Rules 2.9)."""

    width: int
    node_size: int
    height: int
    full_rounds: int
    partial_rounds: int
    diagonal: list[int]
    constants: list[int]
    inverses: list[int]
    total_inverse: int


def constant_count(width: int, full_rounds: int, partial_rounds: int) -> int:
    """How many constants C has: t for each full round and 1 for each partial one."""
    return width * full_rounds + partial_rounds


def arity(s: ParameterSet) -> int:
    """k, the nodes of a row (Rules 2.2)."""
    return s.width // s.node_size


def leaf_count(s: ParameterSet) -> int:
    """A tree has k^h leaves."""
    return arity(s) ** s.height


def used_diagonal(s: ParameterSet) -> list[int]:
    """The first t places of D, the only ones that are read (Rules 2.7)."""
    return s.diagonal[: s.width]


def used_constants(s: ParameterSet) -> list[int]:
    """The places of C that the rounds use, the only ones that are read (Rules 2.7)."""
    return s.constants[: constant_count(s.width, s.full_rounds, s.partial_rounds)]


def five_numbers(s: ParameterSet) -> list[int]:
    """The five numbers."""
    return [s.width, s.node_size, s.height, s.full_rounds, s.partial_rounds]


def all_numbers(s: ParameterSet) -> list[int]:
    """All 238 numbers of a set, in the order of Rules 2.8."""
    return [*five_numbers(s), *s.diagonal, *s.constants, *s.inverses, s.total_inverse]


def refusal_of_numbers(
    width: int, node_size: int, height: int, full_rounds: int, partial_rounds: int
) -> int | None:
    """1 to 5: the first that applies to the five numbers, or None."""
    if width not in (4, 8, 12):
        return 1
    if node_size == 0 or width % node_size != 0 or width // node_size < 2:
        return 2
    if full_rounds % 2 == 1 or full_rounds == 0 or full_rounds > 12:
        return 3
    if partial_rounds > 64:
        return 4
    if height > 32 or (width // node_size) ** height > 2**32:
        return 5
    return None


def internal_matrix(diagonal: Sequence[int]) -> Matrix:
    """M_I in full: D_i + 1 at place i of its diagonal, and 1 everywhere else (Rules 3.4)."""
    width = len(diagonal)
    return [[1 + d if j == i else 1 for j in range(width)] for i, d in enumerate(diagonal)]


@lru_cache
def is_invertible(diagonal: tuple[int, ...]) -> bool:
    """M_I has an inverse: its rank is t (Rules 2.3)."""
    return rank(internal_matrix(diagonal)) == len(diagonal)


def refusal_of_words(diagonal: list[int], constants: list[int]) -> int | None:
    """7 to 9: the first that applies to the words of D and C, or None. Whether D is refused is
    decided by its matrix, and only with which number by its zeros (Rules 2.3)."""
    if not all(is_word(n) for n in diagonal + constants):
        return 7
    if is_invertible(tuple(diagonal)):
        return None
    return 8 if diagonal.count(0) > 1 else 9


@lru_cache
def kept_values(diagonal: tuple[int, ...]) -> tuple[tuple[int, ...], int]:
    """What a set keeps of a D that is accepted: the inverse of each word, 0 for a zero; and the
    inverse of 1 plus their sum, 0 where D has a zero (Rules 2.9)."""
    inverses = tuple(pow(d, -1, P) if d != 0 else 0 for d in diagonal)
    return (inverses, 0 if 0 in diagonal else pow(1 + sum(inverses), -1, P))


def validate(
    width: int,
    node_size: int,
    height: int,
    full_rounds: int,
    partial_rounds: int,
    diagonal: list[int],
    constants: list[int],
) -> tuple[str, ParameterSet | int]:
    """Validation (Rules 2.4): ("set", s) or ("refused", r)."""
    number = refusal_of_numbers(width, node_size, height, full_rounds, partial_rounds)
    if number is not None:
        return ("refused", number)
    count = constant_count(width, full_rounds, partial_rounds)
    if len(diagonal) != width or len(constants) != count:
        return ("refused", 6)
    number = refusal_of_words(diagonal, constants)
    if number is not None:
        return ("refused", number)
    inverses, total_inverse = kept_values(tuple(diagonal))
    return (
        "set",
        ParameterSet(
            width,
            node_size,
            height,
            full_rounds,
            partial_rounds,
            filled(diagonal, DIAGONAL_PLACES),
            filled(constants, CONSTANT_PLACES),
            filled(inverses, DIAGONAL_PLACES),
            total_inverse,
        ),
    )


def filled(words: Sequence[int], places: int) -> list[int]:
    """The words in their places, and 0 in the places after them."""
    return [*words, *[0] * (places - len(words))]


def refusal_of_set(s: ParameterSet) -> int | None:
    """What every entry tests of a set: validation's refusals but 6 (Rules 2.7), and then that its
    kept values are those of its D, number for number; those beyond t aren't read (Rules 2.10)."""
    number = refusal_of_numbers(*five_numbers(s))
    if number is not None:
        return number
    number = refusal_of_words(used_diagonal(s), used_constants(s))
    if number is not None:
        return number
    kept = (tuple(s.inverses[: s.width]), s.total_inverse)
    return None if kept == kept_values(tuple(used_diagonal(s))) else 18


def exchange_diagonal(s: ParameterSet, diagonal: list[int]) -> tuple[str, ParameterSet | int]:
    """The set with another D (Rules 2.11): the answer of validation, if the set that is handed in
    has no refusal of its own."""
    number = refusal_of_set(s)
    if number is not None:
        return ("refused", number)
    return validate(*five_numbers(s), diagonal, used_constants(s))


def exchange_height(s: ParameterSet, height: int) -> tuple[str, ParameterSet | int]:
    """The set with another h, likewise."""
    number = refusal_of_set(s)
    if number is not None:
        return ("refused", number)
    width, node_size, _, full_rounds, partial_rounds = five_numbers(s)
    numbers = width, node_size, height, full_rounds, partial_rounds
    return validate(*numbers, used_diagonal(s), used_constants(s))
