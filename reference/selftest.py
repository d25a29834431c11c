"""Checks the reference on the worked cases of docs/RULES.md and on published vectors.

Each group below yields checks (name, got, expected). One line is printed for a
group, one more for each check that failed, and the totals last.
"""

import random
import sys
from collections.abc import Callable, Iterable, Iterator
from itertools import chain, combinations, permutations, product
from unittest.mock import patch

import cases
import diagonal_cases
import field
import field_vectors
import file_checks
import history_cases
import history_vectors
import matrices
import merkle
import poseidon2
import program
import published
import push_cases
import push_vectors
import set_checks
import tree_cases
import tree_vectors
from field import P
from parameters import (
    ParameterSet,
    arity,
    constant_count,
    five_numbers,
    internal_matrix,
    leaf_count,
    refusal_of_set,
    refusal_of_words,
    used_constants,
    used_diagonal,
    validate,
)

Check = tuple[str, object, object]

T_CONSTANTS = [0, 0, 0, 0, P - 505316, P - 410806, P - 127289, P - 94519]
U_CONSTANTS = [0, 0, 0, 0] + [P - 505316]
U_CONSTANTS += [P - 632615, P - 1454227, P - 1014482, P - 1010691]
V_CONSTANTS = [0, 0, 0, 0] + [P - 505316]
V_CONSTANTS += [P - 632614, P - 1043421, P - 887193, P - 916172]
W_CONSTANTS = [0, 0, 0, 0] + [P - 505316]
W_CONSTANTS += [P - 632614, 599803, P - 250748, P - 349058]
T_NUMBERS = [4, 2, 1, 2, 0, 1, 2, 3, 4] + T_CONSTANTS


def accepted(*arguments) -> ParameterSet:
    """A set that validation must accept."""
    kind, answer = validate(*arguments)
    assert kind == "set", (kind, answer)
    return answer


def set_t() -> ParameterSet:
    """The set T (Rules 9)."""
    return accepted(4, 2, 1, 2, 0, [1, 2, 3, 4], T_CONSTANTS)


def set_u() -> ParameterSet:
    """The set U (Rules 9)."""
    return accepted(4, 2, 1, 2, 1, [1, 2, 3, 4], U_CONSTANTS)


def set_v() -> ParameterSet:
    """The set V (Rules 9), which has a zero in D."""
    return accepted(4, 2, 1, 2, 1, [0, 1, 2, 3], V_CONSTANTS)


def set_w() -> ParameterSet:
    """V with other words in D, whose inverses cancel beside the zero, and constants for these."""
    return accepted(4, 2, 1, 2, 1, [0, P - 3, P - 3, P - 3], W_CONSTANTS)


def seeded_words(rng: random.Random, count: int) -> list[int]:
    """Words for the seeded checks."""
    return [rng.randrange(P) for _ in range(count)]


def seeded_set(
    rng: random.Random, width: int, node_size: int, height: int, full: int, partial: int
) -> ParameterSet:
    """A set with drawn words in D and C; now and then one word of D is 0."""
    diagonal = [rng.randrange(1, P) for _ in range(width)]
    if rng.randrange(4) == 0:
        diagonal[rng.randrange(width)] = 0
    constants = seeded_words(rng, constant_count(width, full, partial))
    return accepted(width, node_size, height, full, partial, diagonal, constants)


def built(s: ParameterSet, leaves: list[int]) -> list[int]:
    """The store that building writes."""
    store = [P] * merkle.store_length(s)
    assert merkle.build(s, leaves, store) == ("done", None)
    return store


def opened(s: ParameterSet, store: list[int], place: int) -> list[int]:
    """The opening that the opening entry writes."""
    siblings = [P] * merkle.siblings_length(s)
    assert merkle.opening(s, store, place, siblings) == ("done", None)
    return siblings


def program_input(numbers: list[int]) -> bytes:
    """Numbers as the root program reads them."""
    return b"".join(n.to_bytes(8, "little") for n in numbers)


# The worked cases (Rules 9).


def worked_field() -> Iterator[Check]:
    """The field's worked cases."""
    yield "(p-1)x(p-1)", field.product(P - 1, P - 1), ("word", 1)
    yield "2^32 x 2^32", field.product(2**32, 2**32), ("word", 4294967295)
    yield "2^48 x 2^48", field.product(2**48, 2**48), ("word", P - 1)
    yield "p x p", field.product(P, P), ("word", 0)
    yield "(p+1)x(p-1)", field.product(P + 1, P - 1), ("word", P - 1)
    yield "(2^64-1)x(2^64-1)", field.product(2**64 - 1, 2**64 - 1), ("word", P - 12884901885)
    yield "p to the power 0", field.power(P, 0), ("word", 1)
    yield "p to the power 1", field.power(P, 1), ("word", 0)
    yield "p + 2 to the power 7", field.power(P + 2, 7), ("word", 128)
    yield "0-1", field.difference(0, 1), ("word", P - 1)
    yield "inverse of 2", field.inverse(2), ("word", 9223372034707292161)
    yield "root of 128", field.seventh_root(128), ("word", 2)


def worked_layers() -> Iterator[Check]:
    """The worked cases of M4, M_E, its halves and M_I."""
    yield "M4", matrices.times(poseidon2.M4, [1, 0, 0, 0]), [5, 4, 1, 1]
    got = poseidon2.external_layer([1, 0, 0, 0, 0, 0, 0, 0])
    yield "M_E, t=8", got, [10, 8, 2, 2, 5, 4, 1, 1]
    got = poseidon2.sums([1, 0, 0, 0, 0, 0, 0, 0])
    yield "sums, t=8", got, [2, 0, 0, 0, 1, 0, 0, 0]
    got = poseidon2.m4_blocks([2, 0, 0, 0, 1, 0, 0, 0])
    yield "M4 in each block, t=8", got, [10, 8, 2, 2, 5, 4, 1, 1]
    got = poseidon2.sums(list(range(1, 13)))
    yield "sums, t=12", got, [16, 20, 24, 28, 20, 24, 28, 32, 24, 28, 32, 36]
    yield "sums, t=4", poseidon2.sums([1, 2, 3, 4]), [1, 2, 3, 4]
    got = poseidon2.internal_layer(set_t().diagonal[:4], [1, 0, 0, 0])
    yield "M_I under T", got, [2, 1, 1, 1]
    diagonal = set_v().diagonal[:4]
    yield "M_I under V", poseidon2.internal_layer(diagonal, [4, 3, 2, 1]), [10, 13, 14, 13]
    inverse = matrices.inverse_matrix(internal_matrix(diagonal))
    yield "M_I undone under V", matrices.times(inverse, [10, 13, 14, 13]), [4, 3, 2, 1]
    for state in ([1, 0, 0, 0], [0, 0, 1, 0]):
        got = poseidon2.internal_layer([0, 1, 0, 3], state)
        yield f"M_I of {state}, two zeros in D", got, [1, 1, 1, 1]


def worked_permutation() -> Iterator[Check]:
    """The worked permutations and compressions. The constants of V and W, like those of T and U,
    leave the last round (1,0,0,0) to raise."""
    for name, s in (("T", set_t()), ("U", set_u()), ("V", set_v()), ("W", set_w())):
        got = poseidon2.permute(s, [1, 0, 0, 0])
        yield f"permutation under {name}", got, ("words", [5, 4, 1, 1])
        got = poseidon2.unpermute(s, [5, 4, 1, 1])
        yield f"inverse permutation under {name}", got, ("words", [1, 0, 0, 0])
        got = poseidon2.compress(s, [1, 0, 0, 0], 2)
        yield f"compression under {name}", got, ("words", [6, 4])


def worked_tree() -> Iterator[Check]:
    """The worked tree: two leaves under T."""
    s = set_t()
    yield "sizes", merkle.sizes(s), ("sizes", [4, 6, 2])
    store = built(s, [1, 0, 0, 0])
    yield "store", store, [1, 0, 0, 0, 6, 4]
    yield "root", merkle.root(s, store), ("words", [6, 4])
    yield "storeless", merkle.storeless_root(s, [1, 0, 0, 0]), ("words", [6, 4])
    yield "opening of place 0", opened(s, store, 0), [0, 0]
    yield "opening of place 1", opened(s, store, 1), [1, 0]


def worked_program() -> Iterator[Check]:
    """The worked runs of the root program."""
    got = program.run(program_input(T_NUMBERS + [1, 0, 0, 0]))
    yield "T and 1,0,0,0", got, b"6\n4\n"
    yield "empty input", program.run(b""), b"refused 10\n"


def worked_validation() -> Iterator[Check]:
    """The worked cases of validation."""
    got = validate(4, 2, 1, 2, 0, [P - 4] * 4, T_CONSTANTS)
    yield "D all p-4", got, ("refused", 9)
    yield "V", validate(4, 2, 1, 2, 1, [0, 1, 2, 3], V_CONSTANTS)[0], "set"
    got = validate(4, 2, 1, 2, 0, [0, 2, 0, 4], T_CONSTANTS)
    yield "T with D = 0,2,0,4", got, ("refused", 8)
    for diagonal, number in (
        ([0, 1, 2, 3], None),
        ([0, 1, 0, 3], 8),
        ([0, P - 3, P - 3, P - 3], None),
    ):
        yield f"8 and 9, D = {diagonal}", refusal_of_words(diagonal, []), number
    numbers = [1, 2, 3, 4], T_CONSTANTS
    yield "k=2, h=32", validate(4, 2, 32, 2, 0, *numbers)[0], "set"
    yield "k=2, h=33", validate(4, 2, 33, 2, 0, *numbers), ("refused", 5)
    twelve = [1] * 12, [0] * 24
    yield "k=12, h=8", validate(12, 1, 8, 2, 0, *twelve)[0], "set"
    yield "k=12, h=9", validate(12, 1, 9, 2, 0, *twelve), ("refused", 5)


def worked_place() -> Iterator[Check]:
    """T has no place 2: every entry that takes a place refuses it with 11."""
    s = set_t()
    store = built(s, [1, 0, 0, 0])
    gone = ("refused", 11)
    yield "opening", merkle.opening(s, store, 2, [0, 0]), gone
    yield "verdict", merkle.verify(s, [6, 4], 2, [1, 0], [0, 0]), gone
    yield "replacement", merkle.replace(s, store, 2, [1, 0]), gone
    yield "push", merkle.push(s, store, [(2, [0] * 6)]), gone
    rows = [0] * 4, [0] * 4
    got = merkle.extract(s, [6, 4], 2, [1, 0], [0, 0], [0, 0], [0, 0], *rows)
    yield "extraction", got, gone


def worked_extraction() -> Iterator[Check]:
    """Under T: the leaf beside itself, with a good opening and with a bad one, and another leaf."""
    offered = [1, 0], [0, 0]
    for leaf, siblings, number in (([1, 0], [0, 0], 15), ([1, 0], [0, 1], 15), ([2, 0], [0, 0], 14)):
        for first, second in ((offered, (leaf, siblings)), ((leaf, siblings), offered)):
            rows = [9] * 4, [9] * 4
            got = merkle.extract(set_t(), [6, 4], 0, *first, *second, *rows)
            yield f"{first} and {second}", (got, rows), (("refused", number), ([9] * 4, [9] * 4))


def worked_word() -> Iterator[Check]:
    """p is refused with 12 wherever a word is wanted, and p - 1 is not."""
    s = set_t()
    for n, fits in ((P, False), (P - 1, True)):
        store, rows = built(s, [1, 0, 0, 0]), ([9] * 4, [9] * 4)
        answers = {
            "sum": field.sum(n, 0),
            "difference": field.difference(0, n),
            "inverse": field.inverse(n),
            "seventh root": field.seventh_root(n),
            "permutation": poseidon2.permute(s, [0, 0, 0, n]),
            "inverse permutation": poseidon2.unpermute(s, [n, 0, 0, 0]),
            "compression": poseidon2.compress(s, [0, n, 0, 0], 2),
            "building": merkle.build(s, [0, 0, n, 0], [0] * 6),
            "storeless root": merkle.storeless_root(s, [0, 0, n, 0]),
            "root": merkle.root(s, [*store[:5], n]),
            "opening": merkle.opening(s, [0, 0, n, 0, 6, 4], 0, [0, 0]),
            "verdict, root": merkle.verify(s, [6, n], 0, [1, 0], [0, 0]),
            "verdict, leaf": merkle.verify(s, [6, 4], 0, [n, 0], [0, 0]),
            "verdict, sibling": merkle.verify(s, [6, 4], 0, [1, 0], [0, n]),
            "replacement": merkle.replace(s, store, 0, [n, 0]),
            "push": merkle.push(s, store, [(0, [0, n, 0, 0, 0, 0])]),
            "extraction": merkle.extract(s, [6, 4], 0, [1, 0], [0, 0], [n, 0], [0, 0], *rows),
        }
        for name, answer in answers.items():
            yield f"{name} of {n}", answer != ("refused", 12), fits


# The published instances.


def published_instances() -> Iterator[Check]:
    """Known answers of the published permutations, forwards and backwards."""
    for instance in published.INSTANCES:
        s = accepted(
            instance["width"],
            instance["width"] // 2,
            1,
            instance["full_rounds"],
            instance["partial_rounds"],
            instance["diagonal"],
            instance["constants"],
        )
        for before, after in instance["known_answers"]:
            name = f"t={s.width} of {before}"
            yield name, poseidon2.permute(s, before), ("words", after)
            yield name + " back", poseidon2.unpermute(s, after), ("words", before)


# Further checks of the reference against the rules.


def times(a: int, b: int) -> int:
    """A product of words modulo p by doubling and adding alone, the highest bit of b first."""
    r = 0
    for bit in f"{b:064b}":
        for more in (r, a if bit == "1" else 0):
            r = r + more if r + more < P else r + more - P
    return r


def any_numbers() -> Iterator[Check]:
    """Products and powers of any numbers are those of their residues, and nothing is refused."""
    words = {n: n if n < P else n - P for n in field_vectors.EDGES}
    for a, b in product(words, repeat=2):
        yield f"{a} x {b}", field.product(a, b), ("word", times(words[a], words[b]))
        raised = 1
        for bit in f"{b:b}":
            raised = times(times(raised, raised), words[a] if bit == "1" else 1)
        yield f"{a} to the power {b}", field.power(a, b), ("word", raised)


def field_rules() -> Iterator[Check]:
    """The field's rules beyond the worked cases."""
    yield "root's exponent", field.SEVENTH_ROOT_EXPONENT, 10540996611094048183
    yield "0 to the power 0", field.power(0, 0), ("word", 1)
    yield "exponent p is free", field.power(3, P), ("word", 3)
    yield "exponent 2^64 - 1", field.power(2, 2**64 - 1), ("word", 2**31 * 2**32 % P)
    yield from any_numbers()
    yield "inverse of 0", field.inverse(0), ("refused", 13)
    yield "inverse of p", field.inverse(P), ("refused", 12)
    yield "inverse of 2^64 - 1", field.inverse(2**64 - 1), ("refused", 12)
    rng = random.Random(1)
    for word in seeded_words(rng, 50):
        _, inverse = field.inverse(word)
        yield f"inverse of {word}", field.product(word, inverse), ("word", 1)
        yield f"inverse of {word} is a word", field.is_word(inverse), True
        _, root = field.seventh_root(word)
        yield f"root of {word}", field.power(root, 7), ("word", word)
        yield f"root of {word} is a word", field.is_word(root), True


def validation_refusals() -> Iterator[Check]:
    """Each refusal of validation, and the lowest where several apply."""
    d, c = [1, 2, 3, 4], T_CONSTANTS
    huge = 2**64 - 1
    cases = [
        (1, (0, 2, 1, 2, 0, d, c)),
        (1, (5, 0, huge, huge, huge, [], [])),
        (1, (16, 2, 1, 2, 0, d, c)),
        (2, (4, 0, huge, huge, huge, [], [])),
        (2, (4, 3, 1, 2, 0, d, c)),
        (2, (4, 4, 1, 2, 0, d, c)),
        (2, (4, 8, 1, 2, 0, d, c)),
        (3, (4, 2, huge, 0, huge, [], [])),
        (3, (4, 2, 1, 3, 0, d, c)),
        (3, (4, 2, 1, 14, 0, d, c)),
        (4, (4, 2, huge, 2, 65, [], [])),
        (5, (4, 2, 33, 2, 0, [], [])),
        (5, (4, 1, 17, 2, 0, d, c)),
        (5, (4, 2, huge, 2, 0, d, c)),
        (6, (4, 2, 1, 2, 0, [P, 0, 1], c)),
        (6, (4, 2, 1, 2, 0, d + [1], c)),
        (6, (4, 2, 1, 2, 0, d, c[:-1])),
        (6, (4, 2, 1, 2, 0, d, c + [0])),
        (7, (4, 2, 1, 2, 0, [0, 0, 0, P], c)),
        (7, (4, 2, 1, 2, 0, [0, P, 1, 1], c)),
        (7, (4, 2, 1, 2, 0, [P - 4] * 4, c[:-1] + [P])),
        (8, (4, 2, 1, 2, 0, [P - 1, 0, 0, 1], c)),
        (8, (4, 2, 1, 2, 0, [0, P - 2, P - 2, 0], c)),
        (8, (4, 2, 1, 2, 0, [0, 0, 0, 0], c)),
        (9, (4, 2, 1, 2, 0, [P - 4] * 4, c)),
        (9, (4, 2, 1, 2, 0, [1, P - 1, 1, (P - 1) // 2], c)),
    ]
    for number, arguments in cases:
        yield f"{number} for {arguments}", validate(*arguments), ("refused", number)
    for one_zero in ([P - 1, 0, 1, 1], [0, P - 3, P - 3, P - 3], [1, 1, 1, 0]):
        yield f"accepted with D = {one_zero}", validate(4, 2, 1, 2, 0, one_zero, c)[0], "set"
    s = set_t()
    yield "accepted D", s.diagonal, d + [0] * 8
    yield "accepted C", s.constants, c + [0] * 200
    most = validate(12, 6, 32, 12, 64, [1] * 12, [P - 1] * 208)
    yield "the largest set", most[0], "set"


def handed_sets() -> Iterator[Check]:
    """A set handed in has the same refusals but 6, on its used places only."""
    s = set_t()
    yield "T", refusal_of_set(s), None
    s.diagonal[4:] = [0, P] * 4
    s.constants[8:] = [P] * 200
    s.inverses[4:] = [0, P] * 4
    yield "places beyond", refusal_of_set(s), None
    yield "still permutes", poseidon2.permute(s, [1, 0, 0, 0]), ("words", [5, 4, 1, 1])
    s = accepted(4, 2, 1, 2, 0, [1, 0, 3, 4], T_CONSTANTS)
    yield "one zero, and zeros beyond", refusal_of_set(s), None
    changes = [
        (1, "width", 6),
        (2, "node_size", 0),
        (3, "full_rounds", 1),
        (4, "partial_rounds", 65),
        (5, "height", 33),
        (7, "diagonal", [P] + [1] * 11),
        (7, "constants", [P] + [0] * 207),
        (8, "diagonal", [0, 1, 1, 0] + [1] * 8),
        (9, "diagonal", [P - 4] * 12),
        (18, "diagonal", [1, 2, 3, 5] + [0] * 8),
        (18, "total_inverse", 0),
    ]
    for number, name, value in changes:
        s = set_t()
        setattr(s, name, value)
        yield f"{name} to {value}", refusal_of_set(s), number
        refused = ("refused", number)
        yield f"permute, refused with {number}", poseidon2.permute(s, [P]), refused
        yield f"sizes, refused with {number}", merkle.sizes(s), refused
        yield f"build, refused with {number}", merkle.build(s, [P], []), refused
        yield f"push, refused with {number}", merkle.push(s, [P], [(9, [P] * 6)]), refused


def halves_of_external() -> Iterator[Check]:
    """The sums and then M4 in each block are M_E, and so are they the other way round."""
    rng = random.Random(20)
    for width in (4, 8, 12):
        states = [[P - 1] * width, *matrices.identity(width)]
        states += [seeded_words(rng, width) for _ in range(200)]
        for i, state in enumerate(states):
            layer = poseidon2.external_layer(state)
            got = poseidon2.m4_blocks(poseidon2.sums(state))
            yield f"t={width}, state {i}, sums first", got, layer
            got = poseidon2.sums(poseidon2.m4_blocks(state))
            yield f"t={width}, state {i}, M4 first", got, layer


def inverse_permutations() -> Iterator[Check]:
    """The permutation and its inverse undo each other, also with a zero at any place of D."""
    rng = random.Random(2)
    for width in (4, 8, 12):
        for full, partial in ((2, 0), (4, 3), (12, 64)):
            s = seeded_set(rng, width, 2, 1, full, partial)
            yield from undone_permutation(rng, f"t={width}, R_F={full}, R_P={partial}", s)
        for place in range(width):
            constants = seeded_words(rng, constant_count(width, 2, 1 + place))
            diagonal = [rng.randrange(1, P) for _ in range(width)]
            diagonal[place] = 0
            s = accepted(width, 2, 1, 2, 1 + place, diagonal, constants)
            yield from undone_permutation(rng, f"t={width}, D_{place}=0", s)


def undone_permutation(rng: random.Random, name: str, s: ParameterSet) -> Iterator[Check]:
    """A drawn state, permuted and back, and the other way round."""
    state = seeded_words(rng, s.width)
    _, after = poseidon2.permute(s, state)
    yield name, poseidon2.unpermute(s, after), ("words", state)
    _, before = poseidon2.unpermute(s, state)
    yield name + " back", poseidon2.permute(s, before), ("words", state)


# Matrices, and what of D leaves M_I an inverse.


def elimination() -> Iterator[Check]:
    """Ranks and inverses that are known, where a pivot stands in another row too, and M4's."""
    for matrix, rank in [
        ([[0, 0], [0, 0]], 0),
        ([[0, 0], [5, 0]], 1),
        ([[1, 2], [2, 4]], 1),
        ([[0, 1], [1, 0]], 2),
        ([[0, 1, 2], [0, 3, 6], [0, 0, 1]], 2),
        ([[0, 0, 1], [1, 0, 0], [0, 1, 0]], 3),
        ([[1, 1, 1], [1, 1, 1], [1, 1, 2]], 2),
        ([[P, 1], [1, P]], 2),
        ([[P - 1, 1], [1, P - 1]], 1),
    ]:
        yield f"rank of {matrix}", matrices.rank(matrix), rank
    turn = [[0, 1, 0], [0, 0, 1], [1, 0, 0]]
    yield "inverse of a turn", matrices.inverse_matrix(turn), [[0, 0, 1], [1, 0, 0], [0, 1, 0]]
    eight = [[-1, 3, -6, 7], [1, -1, 4, -5], [-6, 7, -1, 3], [4, -5, 1, -1]]
    eighth = [[n * pow(8, -1, P) % P for n in row] for row in eight]
    yield "inverse of M4", matrices.inverse_matrix(poseidon2.M4), eighth
    rng = random.Random(24)
    for size in (4, 8, 12):
        for rank in range(1, size + 1):
            left = [seeded_words(rng, rank) for _ in range(size)]
            right = [seeded_words(rng, size) for _ in range(rank)]
            made = matrices.product(left, right)
            yield f"rank {rank} of {size}", matrices.rank(made), rank


def rows_8_and_9(diagonal: list[int]) -> int | None:
    """What the two rows say of D, without a matrix (Rules 8.1)."""
    if diagonal.count(0) >= 2:
        return 8
    if diagonal.count(0) == 0 and (1 + sum(pow(d, -1, P) for d in diagonal)) % P == 0:
        return 9
    return None


def undone_words(diagonal: list[int], image: list[int]) -> list[int]:
    """M_I undone word by word: by the sum, which the image has at the place of a zero, or else by
    the inverses of D (Rules 7.3)."""
    if 0 in diagonal:
        place = diagonal.index(0)
        total = image[place]
        words = [(y - total) * pow(d, -1, P) % P if d else 0 for y, d in zip(image, diagonal)]
        words[place] = (total - sum(words)) % P
        return words
    inverses = [pow(d, -1, P) for d in diagonal]
    weighed = sum(e * y for e, y in zip(inverses, image))
    total = weighed * pow(1 + sum(inverses), -1, P) % P
    return [e * (y - total) % P for e, y in zip(inverses, image)]


def two_alike(diagonal: list[int]) -> tuple[list[int], list[int]]:
    """Two states to which a D that is refused gives one image: the unit words at two zeros; or the
    inverses of D, and zeros."""
    if 0 in diagonal:
        units = matrices.identity(len(diagonal))
        first, second, *_ = (unit for unit, d in zip(units, diagonal) if d == 0)
        return (first, second)
    return ([pow(d, -1, P) for d in diagonal], [0] * len(diagonal))


def diagonal_checks(name: str, diagonal: list[int], state: list[int]) -> Iterator[Check]:
    """The rank of M_I and the rows decide alike. Accepted, M_I is undone; refused, it can't be."""
    full, unit = internal_matrix(diagonal), matrices.identity(len(diagonal))
    number, by_rows = refusal_of_words(diagonal, []), rows_8_and_9(diagonal)
    yield name, number, by_rows
    if number != by_rows:
        return
    if number is None:
        inverse = matrices.inverse_matrix(full)
        yield name + ", inverse first", matrices.product(full, inverse), unit
        yield name + ", inverse last", matrices.product(inverse, full), unit
        yield name + ", undone", undone_words(diagonal, state), matrices.times(inverse, state)
        image = poseidon2.internal_layer(diagonal, state)
        yield name + ", back", undone_words(diagonal, image), state
    else:
        first, second = two_alike(diagonal)
        images = [poseidon2.internal_layer(diagonal, words) for words in (first, second)]
        yield name + ", states", first != second, True
        yield name + ", one image", images[0], images[1]


def diagonals() -> Iterator[Check]:
    """The cases of diagonal_vectors; and that every kind of D is among them, at every width often
    and with the zero at every place."""
    kinds: dict[tuple[int, int, bool], int] = {}
    places: dict[tuple[int, int], int] = {}
    for n, case in enumerate(diagonal_cases.all_diagonals()):
        t, diagonal = case.width, case.diagonal.numbers(cases.LIST_DIAGONAL_PLACES)
        yield from diagonal_checks(f"{n}, {diagonal}", diagonal, case.state.numbers(t))
        empty = [i for i, d in enumerate(diagonal) if d == 0]
        cancels = (1 + sum(pow(d, -1, P) for d in diagonal if d != 0)) % P == 0
        kind = (t, min(len(empty), 3), cancels)
        kinds[kind] = kinds.get(kind, 0) + 1
        if len(empty) == 1:
            places[t, empty[0]] = places.get((t, empty[0]), 0) + 1
    for t, count, cancels in product((4, 8, 12), range(4), (False, True)):
        if (count, cancels) != (3, True):
            name = f"t={t}, {count} zeros, {'' if cancels else 'not '}cancelling"
            yield name, kinds.get((t, count, cancels), 0) >= 100, True
    for t in (4, 8, 12):
        for place in range(t):
            yield f"t={t}, one zero, at {place}", places.get((t, place), 0) >= 20, True


# Width, node size and height.
TREE_SHAPES = [
    (4, 2, 0),
    (4, 2, 3),
    (4, 1, 2),
    (8, 4, 3),
    (8, 2, 2),
    (8, 1, 1),
    (12, 6, 3),
    (12, 4, 2),
    (12, 3, 2),
    (12, 2, 1),
    (12, 1, 1),
    (12, 6, 0),
]


# The cases that the programs `vectors` and `tree_vectors` are run on.


def vectors_cases() -> Iterator[Check]:
    """Each case is refused with the number that it is made for; all of its input fits."""
    for _, case in cases.sets_cases():
        kind, answer = validate(*case.validated())
        yield f"validate {case}", 0 if kind == "set" else answer, case.refusal
    for _, case in cases.states_cases():
        state = case.state.numbers(cases.STATE_PLACES)
        kind, answer = poseidon2.permute(case.handed(), state)
        yield f"permute {case}", 0 if kind == "words" else answer, case.refusal
    yield fitting(cases.lines(cases.SECTIONS))


def fitting(lines: list[str]) -> Check:
    """A program's buffer has 65,536 bytes."""
    size = sum(len(line) + 1 for line in lines)
    return "bytes of input", size <= 65536, True


def tree_vectors_cases() -> Iterator[Check]:
    """Each call of the section trees is refused with the numbers that it is made for, the sizes with
    those of the set alone; all fits."""
    for what, case in tree_cases.trees_cases():
        if what == tree_cases.CALLS:
            called, (_, last) = tree_vectors.calls_of(case)
            numbers = [number or 0 for number in [*(one for one, _ in called), last]]
            yield f"calls {case}", numbers, case.refusals
            kind, number = merkle.sizes(case.case.handed())
            refused = number if kind == "refused" else 0
            yield f"sizes {case}", refused, case.refusals[0] if case.refusals[0] < 10 else 0
    yield fitting(cases.lines(tree_cases.SECTIONS))


def replacements() -> Iterator[Check]:
    """Each replacement is refused with its number and keeps the store, or does h compressions. In
    the end the store is what building writes from the book."""
    for _, case in tree_cases.replacements_cases():
        s, leaves = case.tree.case.handed(), case.tree.leaves.numbers(tree_cases.TREE_PLACES)
        (number, store), calls = tree_vectors.called_in_order(case)
        book = [] if number else merkle.open_book(s, leaves)
        for call, (answer, after) in zip(case.calls, calls):
            wanted = ("refused", call.refusal) if call.refusal else ("count", s.height)
            yield f"replace {call} of {case.tree}", answer, wanted
            if call.refusal:
                kept = store[: call.fault - 1] + [call.value] + store[call.fault :]
                yield f"{call} keeps", after, kept if call.fault else store
            else:
                merkle.book_replace(s, book, call.place, call.leaf.numbers(tree_cases.LEAF_PLACES))
            store = list(after)
        wanted = [7] * 6 if number else built(s, merkle.book_leaves(book))
        yield f"store of {case.tree}", store, wanted


def extractions() -> Iterator[Check]:
    """Each extraction is refused with its number and keeps both buffers, or gives its level; and its
    openings are accepted, or not, as the case says."""
    for _, one in tree_cases.extractions_cases():
        answer, first, second = tree_vectors.extracted(one)
        if one.accepted is not None:
            root, *offers = one.handed()
            for said, offer in zip(one.accepted, (offers[:2], offers[2:])):
                verdict = merkle.verify(one.case.handed(), root, one.place, *offer)
                yield f"verdict of {one}", verdict, ("accepted" if said else "rejected", None)
        if one.refusal:
            yield f"extract {one}", answer, ("refused", one.refusal)
            yield f"{one} keeps", (first, second), tuple([7] * length for length in one.rows)
        else:
            yield f"extract {one}", answer, ("level", one.level)
            yield from collision(one, first, second)


def collision(one: tree_cases.Extraction, first: list[int], second: list[int]) -> Iterator[Check]:
    """Both openings are accepted and the leaves differ. The rows are those of the level, differ and
    compress alike; below it they compress differently."""
    s = one.case.handed()
    root, leaf, siblings, other, other_siblings = one.handed()
    rows, end = merkle.verdict_rows(s, one.place, leaf, siblings)
    others, other_end = merkle.verdict_rows(s, one.place, other, other_siblings)
    yield "accepted", (end, other_end), (root, root)
    yield "leaves differ", leaf != other, True
    yield "rows", (first, second), (rows[one.level], others[one.level])
    yield "rows differ", first != second, True
    nodes = [[poseidon2.compression(s, row) for row in pair] for pair in zip(rows, others)]
    alike = [a == b for a, b in nodes]
    yield "the lowest level", alike[: one.level + 1], [False] * one.level + [True]


SeededTree = tuple[str, ParameterSet, list[int], list[int]]


def seeded_trees(rng: random.Random, partial: int) -> Iterator[SeededTree]:
    """A name, a set, leaves and their store, for every shape."""
    for width, node_size, height in TREE_SHAPES:
        s = seeded_set(rng, width, node_size, height, 2, partial)
        leaves = seeded_words(rng, merkle.leaves_length(s))
        yield f"t={width}, l={node_size}, h={height}", s, leaves, built(s, leaves)


def sizes() -> Iterator[Check]:
    """The sizes where they are greatest, and of a tree that is one leaf."""
    numbers = [1, 2, 3, 4], T_CONSTANTS
    low = accepted(4, 2, 0, 2, 0, *numbers)
    yield "k=2, h=0", merkle.sizes(low), ("sizes", [2, 2, 0])
    tall = accepted(4, 2, 32, 2, 0, *numbers)
    yield "k=2, h=32", merkle.sizes(tall), ("sizes", [2**33, 2**34 - 2, 64])
    twelve = [1] * 12, [0] * 24
    wide = accepted(12, 1, 8, 2, 0, *twelve)
    yield "k=12, h=8", merkle.sizes(wide), ("sizes", [429981696, 469070941, 88])
    most = accepted(12, 6, 32, 2, 0, *twelve)
    yield "the greatest", merkle.sizes(most), ("sizes", [25769803776, 51539607546, 192])


def trees() -> Iterator[Check]:
    """Building, storeless root, openings and verdicts agree on every shape."""
    for name, s, leaves, store in seeded_trees(random.Random(3), 1):
        node_size, height = s.node_size, s.height
        root = store[-node_size:]
        lists = leaves, sum(merkle.levels(s, leaves), []), merkle.stored_siblings(s, store, 0)
        yield name + " sizes", merkle.sizes(s), ("sizes", [len(made) for made in lists])
        yield name + " leaves", store[: len(leaves)], leaves
        yield name + " root", merkle.root(s, store), ("words", root)
        yield name + " storeless", merkle.storeless_root(s, leaves), ("words", root)
        yield name + " program", run_on(s, leaves), "".join(f"{w}\n" for w in root)
        for place in range(leaf_count(s)):
            leaf = leaves[place * node_size : (place + 1) * node_size]
            siblings = opened(s, store, place)
            got = merkle.verify(s, root, place, leaf, siblings)
            yield f"{name} place {place}", got, ("accepted", None)
            other = [(leaf[0] + 1) % P] + leaf[1:]
            got = merkle.verify(s, root, place, other, siblings)
            yield f"{name} other leaf {place}", got, ("rejected", None)
            parts = [merkle.read_opening(s, siblings, j) for j in range(height)]
            read = [word for _, part in parts for word in part]
            yield f"{name} parts {place}", read, siblings


def run_on(s: ParameterSet, leaves: list[int]) -> str:
    """The root program on a set and leaves."""
    numbers = five_numbers(s) + used_diagonal(s) + used_constants(s)
    return program.run(program_input(numbers + leaves)).decode()


def leaf_book() -> Iterator[Check]:
    """After a list of calls, the store is what building writes from the book."""
    rng = random.Random(4)
    for name, s, leaves, store in seeded_trees(rng, 0):
        book = merkle.open_book(s, leaves)
        answers = [seeded_call(rng, s, store, book) for _ in range(12)]
        yield name + " answers", [a for a, _ in answers], [b for _, b in answers]
        yield name + " store", store, built(s, merkle.book_leaves(book))


# The count of a push, by other ways than the reference's.


def walked(s: ParameterSet, places: list[int]) -> int:
    """How many different nodes are on the ways up from the places, each a level and a number."""
    nodes = set()
    for node in places:
        for level in range(s.height):
            node //= arity(s)
            nodes.add((level, node))
    return len(nodes)


def covered(s: ParameterSet, places: list[int]) -> int:
    """How many of all nodes above the leaves have one of the places under them."""
    sizes = [arity(s) ** level for level in range(1, s.height + 1)]
    spans = [range(at, at + size) for size in sizes for at in range(0, leaf_count(s), size)]
    return sum(any(place in span for place in places) for span in spans)


def places_of(call: history_cases.Replace | history_cases.Push) -> list[int]:
    """The places that a call writes to."""
    if isinstance(call, history_cases.Replace):
        return [call.place]
    return [place for place, _ in call.listed()]


def worked_counts() -> Iterator[Check]:
    """Counts that are worked by hand, level by level from the lowest."""
    for shape, places, count in [
        ((4, 2, 0), [], 0),
        ((4, 2, 0), [0], 0),
        ((4, 2, 1), [1, 0], 1),
        ((4, 2, 3), [], 0),
        ((4, 2, 3), [5], 1 + 1 + 1),
        ((4, 2, 3), [4, 5], 1 + 1 + 1),
        ((4, 2, 3), [3, 4], 2 + 2 + 1),
        ((4, 2, 3), [7, 0], 2 + 2 + 1),
        ((4, 2, 3), [2, 0, 1], 2 + 1 + 1),
        ((4, 2, 3), [1, 3, 0, 2], 2 + 1 + 1),
        ((4, 2, 3), [6, 2, 4, 0], 4 + 2 + 1),
        ((4, 2, 3), [0, 1, 2, 3, 4, 5, 6, 7], 4 + 2 + 1),
        ((12, 4, 2), [5, 3, 4], 1 + 1),
        ((12, 4, 2), [2, 3], 2 + 1),
        ((12, 4, 2), [8, 1, 4], 3 + 1),
        ((12, 1, 2), [*range(12, 24)], 1 + 1),
        ((12, 1, 2), [*range(144)], 12 + 1),
    ]:
        s = seeded_set(random.Random(21), *shape, 2, 0)
        records = [(place, [place] * 6) for place in places]
        store, name = [0] * merkle.store_length(s), f"{shape}, {places}"
        yield name, merkle.push(s, store, records), ("count", count)
        yield name + " of the book", merkle.book_push(s, {}, records), ("count", count)
        yield name + " otherwise", (walked(s, places), covered(s, places)), (count, count)


def push_checks(
    name: str, s: ParameterSet, store: list[int], records: list[merkle.Record]
) -> Iterator[Check]:
    """A push leaves the store that its records leave if they are done singly. Its count is that of
    the nodes above the places, it makes as many compressions, and the book has it too; it is at
    most h for each record, and h for one."""
    after, other = list(store), list(store)
    with patch.object(merkle, "compression", wraps=merkle.compression) as made:
        answer = merkle.push(s, after, records)
    nodes = covered(s, [place for place, _ in records])
    book = merkle.book_push(s, {}, records)
    yield name + ", count", (answer, made.call_count, book), (("count", nodes), nodes, answer)
    most = s.height * len(records)
    yield name + ", most", answer[1] == most if len(records) < 2 else answer[1] <= most, True
    singly = [merkle.replace(s, other, place, words[: s.node_size]) for place, words in records]
    yield name + ", singly", singly, [("count", s.height)] * len(records)
    yield name + ", store", after, other


def seeded_records(rng: random.Random, places: Iterable[int]) -> list[merkle.Record]:
    """Records for these places."""
    return [(place, seeded_words(rng, 6)) for place in places]


def small_lists() -> Iterator[tuple[tuple[int, int, int], Iterable[tuple[int, ...]]]]:
    """For some small trees: all lists of different places, all of up to three, and all sets."""
    yield (4, 2, 2), chain(*(permutations(range(4), count) for count in range(5)))
    yield (8, 4, 3), chain(*(permutations(range(8), count) for count in range(4)))
    for shape in ((4, 2, 3), (8, 1, 1), (12, 4, 2)):
        places = (shape[0] // shape[1]) ** shape[2]
        yield shape, chain(*(combinations(range(places), count) for count in range(places + 1)))


def small_pushes() -> Iterator[Check]:
    """All of these lists on stores of drawn words, which are not built."""
    rng = random.Random(22)
    for shape, lists in small_lists():
        s = seeded_set(rng, *shape, 2, 0)
        for places in lists:
            store = seeded_words(rng, merkle.store_length(s))
            yield from push_checks(f"{shape}, {places}", s, store, seeded_records(rng, places))


def shared_places(rng: random.Random, k: int, h: int) -> Iterator[set[int]]:
    """Places that have nodes above them in common: the first and the last; neighbours in a row; all
    under a node of each level, all of these but one, the neighbours where a node begins, and one
    place under each node; and drawn ones, none among them."""
    places = range(k**h)
    yield {0, places[-1]}
    if h > 0:
        first = rng.choice(places[::k]) + rng.randrange(k - 1)
        yield {first, first + 1}
    for level in range(h + 1):
        size = k**level
        starts = places[::size]
        first = rng.choice(starts)
        under = places[first : first + size]
        yield {*under}
        yield {*under} - {rng.choice(under)}
        yield {first, max(first - 1, 0)}
        yield {starts[-1], max(starts[-1] - 1, 0)}
        yield {start + rng.randrange(size) for start in starts}
    for count in (0, 1, 2, 5, 20, 100):
        yield {*rng.sample(places, min(count, len(places)))}


def seeded_stores(rng: random.Random, s: ParameterSet) -> list[list[int]]:
    """Words as a store: those that are built of drawn leaves, these with others among them, and
    drawn ones."""
    store = built(s, seeded_words(rng, merkle.leaves_length(s)))
    damaged = list(store)
    for at in rng.sample(range(len(store)), len(store) // 4 + 1):
        damaged[at] = rng.randrange(P)
    return [store, damaged, seeded_words(rng, len(store))]


def shared_pushes() -> Iterator[Check]:
    """Such lists in a drawn order, at every width and node size, on these stores by turns."""
    rng = random.Random(23)
    for t, l in cases.SIZES:
        for h in tree_cases.tree_heights(t, l):
            s = seeded_set(rng, t, l, h, 2, h % 2)
            stores = seeded_stores(rng, s)
            for i, places in enumerate(shared_places(rng, arity(s), h)):
                records = seeded_records(rng, rng.sample(sorted(places), len(places)))
                name = f"t={t}, l={l}, h={h}, list {i}"
                yield from push_checks(name, s, stores[i % 3], records)


def histories() -> Iterator[Check]:
    """The cases of history_vectors: the refusals, the counts, the book's answers and the store at
    the end; all is as it would be without the calls that are refused. All of the input fits."""
    for n, one in enumerate(history_cases.histories()):
        s, leaves, (_, store) = history_vectors.begun(one)
        book, other = merkle.open_book(s, leaves), list(store)
        for i, call in enumerate(one.calls):
            before = list(store)
            kind, number = history_vectors.called(s, call, store)
            yield f"{n}, refusal of call {i}", number if kind == "refused" else 0, call.refusal
            yield f"{n}, call {i}", history_vectors.booked(s, call, book), (kind, number)
            if call.refusal:
                yield f"{n}, call {i} keeps", store, before
            else:
                yield f"{n}, count of call {i}", number, covered(s, places_of(call))
                answer = history_vectors.called(s, call, other)
                yield f"{n}, call {i}, none refused", answer, (kind, number)
        yield f"{n}, store", store, built(s, merkle.book_leaves(book))
        yield f"{n}, store, none refused", other, store
    yield fitting(history_cases.lines())


def pushes() -> Iterator[Check]:
    """The cases of push_vectors: the refusals and the counts, of a push where the store is small or
    spoilt, and else the book's. In a small tree a store that is kept whole becomes the same, and
    keeps the same."""
    for n, one in enumerate(push_cases.all_pushes()):
        s, sparse = one.tree.case.handed(), push_vectors.begun(one)
        small, spoilt = one.tree.store <= 1024, one.written.runs != []
        store, book = sparse[:] if small else [], {}
        for i, push in enumerate(one.pushes):
            records = push.listed(push_cases.RECORD_PLACES)
            wanted = ("refused", push.refusal)
            if push.refusal == 0:
                wanted = ("count", walked(s, [place for place, _ in records]))
            if small or spoilt:
                yield f"{n}, push {i}", merkle.push(s, sparse, records), wanted
            if not spoilt:
                yield f"{n}, push {i} of the book", merkle.book_push(s, book, records), wanted
            if small:
                before = list(store)
                yield f"{n}, push {i} of all", merkle.push(s, store, records), wanted
                yield f"{n}, store after {i}", store, sparse[:]
                yield f"{n}, {i} keeps", push.refusal == 0 or store == before, True


def seeded_call(
    rng: random.Random, s: ParameterSet, store: list[int], book: list[list[int]]
) -> tuple[object, object]:
    """One drawn replacement or push, some of them refused: its answer, the book's."""
    places = leaf_count(s) + (1 if rng.randrange(6) == 0 else 0)
    bad = rng.randrange(6) == 0
    if rng.randrange(2) == 0:
        size = s.node_size + (1 if rng.randrange(6) == 0 else 0)
        leaf = seeded_words(rng, size)
        leaf[-1] = P if bad else leaf[-1]
        place = rng.randrange(places)
        answer = merkle.replace(s, store, place, leaf)
        return (answer, merkle.book_replace(s, book, place, leaf))
    records = [
        (rng.randrange(places), seeded_words(rng, 6)) for _ in range(rng.randrange(4))
    ]
    for _, words in records:
        words[rng.randrange(6)] = P if bad else 0
    return (merkle.push(s, store, records), merkle.book_push(s, book, records))


def tree_refusals() -> Iterator[Check]:
    """The tree entries' refusals 10 to 12, the lowest first; every list stays as it was."""
    s = accepted(4, 2, 2, 2, 0, [1, 2, 3, 4], T_CONSTANTS)
    store = built(s, [1, 2, 3, 4, 5, 6, 7, 8])
    root = store[-2:]
    leaf, siblings = [1, 2], opened(s, store, 0)
    bad = [P, P]
    six = [P] * 6

    yield "build, leaves", merkle.build(s, [P] * 7, [0] * 14), ("refused", 10)
    buffer = [9] * 13
    yield "build, store", merkle.build(s, [P] * 8, buffer), ("refused", 10)
    yield "build keeps", buffer, [9] * 13
    buffer = [9] * 14
    yield "build, word", merkle.build(s, [0] * 7 + [P], buffer), ("refused", 12)
    yield "build keeps the store", buffer, [9] * 14
    yield "root, store", merkle.root(s, store + [0]), ("refused", 10)
    yield "root, word", merkle.root(s, store[:-1] + [P]), ("refused", 12)
    yield "storeless, leaves", merkle.storeless_root(s, [P] * 9), ("refused", 10)

    buffer = [9] * 4
    yield "opening, store", merkle.opening(s, store[1:], 4, buffer), ("refused", 10)
    yield "opening, buffer", merkle.opening(s, store, 4, [9] * 3), ("refused", 10)
    spoiled = store[:2] + bad + store[4:]
    yield "opening, place", merkle.opening(s, spoiled, 4, buffer), ("refused", 11)
    yield "opening, word", merkle.opening(s, spoiled, 0, buffer), ("refused", 12)
    yield "opening keeps", buffer, [9] * 4
    yield "opening, not copied", merkle.opening(s, spoiled, 1, buffer), ("done", None)

    yield "reader, length", merkle.read_opening(s, six, 2), ("refused", 10)
    yield "reader, level", merkle.read_opening(s, [0, 0] + bad, 2), ("refused", 11)
    yield "reader, word", merkle.read_opening(s, [0, 0] + bad, 1), ("refused", 12)
    yield "reader, other part", merkle.read_opening(s, [0, 0] + bad, 0), ("words", [0, 0])

    yield "verdict, root", merkle.verify(s, [P], 4, bad, siblings), ("refused", 10)
    yield "verdict, leaf", merkle.verify(s, root, 4, [P], siblings), ("refused", 10)
    yield "verdict, siblings", merkle.verify(s, root, 4, bad, [P]), ("refused", 10)
    yield "verdict, place", merkle.verify(s, root, 4, bad, siblings), ("refused", 11)
    yield "verdict, word", merkle.verify(s, root, 3, bad, siblings), ("refused", 12)

    buffer = list(spoiled)
    yield "replace, store", merkle.replace(s, buffer[1:], 4, bad), ("refused", 10)
    yield "replace, leaf", merkle.replace(s, buffer, 4, [P]), ("refused", 10)
    yield "replace, place", merkle.replace(s, buffer, 4, bad), ("refused", 11)
    yield "replace, word", merkle.replace(s, buffer, 3, bad), ("refused", 12)
    yield "replace, sibling", merkle.replace(s, buffer, 0, leaf), ("refused", 12)
    yield "replace keeps", buffer, spoiled
    yield "replace, not read", merkle.replace(s, buffer, 1, [3, 4]), ("count", 2)
    yield "replace mends its place", buffer, store

    buffer = list(spoiled)
    yield "push, store", merkle.push(s, buffer[1:], [(4, six)]), ("refused", 10)
    yield "push, place", merkle.push(s, buffer, [(0, six), (4, six)]), ("refused", 11)
    yield "push, whole store", merkle.push(s, buffer, [(1, [0] * 6)]), ("refused", 12)
    yield "push keeps", buffer, spoiled
    buffer = list(store)
    got = merkle.push(s, buffer, [(0, [0] * 6), (1, [0, P, 0, 0, 0, 0])])
    yield "push, used word", got, ("refused", 12)
    yield "push keeps the store", buffer, store
    yield "push, unused words", merkle.push(s, buffer, [(0, leaf + bad * 2)]), ("count", 2)
    yield "push of none", merkle.push(s, buffer, []), ("count", 0)
    yield "push changed nothing", buffer, store


def repeated_places() -> Iterator[Check]:
    """17 for exactly the lists that have two records of one place; after all other refusals of a push
    and of the book; every list stays as it was."""
    s = accepted(4, 2, 2, 2, 0, [1, 2, 3, 4], T_CONSTANTS)
    store = built(s, [1, 2, 3, 4, 5, 6, 7, 8])
    book = merkle.open_book(s, store[:8])
    leaf, bad = [5] * 6, [5, P, 5, 5, 5, 5]

    for count in range(5):
        for places in product(range(4), repeat=count):
            twice = any(a == b for a, b in combinations(places, 2))
            wanted = ("refused", 17) if twice else ("count", covered(s, places))
            records = [(place, leaf) for place in places]
            after, pages = list(store), [list(page) for page in book]
            yield f"push to {places}", merkle.push(s, after, records), wanted
            yield f"book, {places}", merkle.book_push(s, pages, records), wanted
            leaves = [[5, 5] if n in places and not twice else book[n] for n in range(4)]
            yield f"leaves after {places}", after, built(s, merkle.book_leaves(leaves))
            yield f"pages after {places}", pages, leaves

    for others in ([], [(1, leaf)], [(1, leaf), (2, leaf), (0, leaf)]):
        one, two = (3, leaf), (3, [6] * 6)
        for number, records in [
            (17, [one, *others, one]),
            (17, [one, *others, two]),
            (17, [*others, one, two]),
            (17, [two, one, *others]),
            (12, [one, *others, (3, bad)]),
            (12, [(3, bad), *others, (3, bad)]),
            (12, [one, one, *others, (0, bad)]),
            (12, [(0, bad), *others, one, one]),
            (11, [one, one, *others, (4, leaf)]),
            (11, [(4, leaf), *others, (4, leaf)]),
            (11, [(4, bad), *others, one, one]),
            (11, [one, (4, leaf), *others, (3, bad)]),
        ]:
            name, after, pages = f"{number} for {records}", list(store), list(book)
            yield name, merkle.push(s, after, records), ("refused", number)
            yield name + " of the book", merkle.book_push(s, pages, records), ("refused", number)
            yield name + " keeps", (after, pages), (store, book)
            spoilt = [P, *store[1:]]
            refused = ("refused", min(number, 12))
            yield name + ", store", merkle.push(s, spoilt, records), refused
            yield name + ", long store", merkle.push(s, [*store, 0], records), ("refused", 10)
            high = accepted(4, 2, 32, 2, 0, [1, 2, 3, 4], T_CONSTANTS)
            high.height = 33
            yield name + ", set", merkle.push(high, store, records), ("refused", 5)

    low = accepted(4, 2, 0, 2, 0, [1, 2, 3, 4], T_CONSTANTS)
    store = [1, 2]
    yield "one place, twice", merkle.push(low, store, [(0, leaf), (0, leaf)]), ("refused", 17)
    yield "one place, keeps", store, [1, 2]
    yield "one place, once", merkle.push(low, store, [(0, leaf)]), ("count", 0)
    yield "one place, written", store, [5, 5]


def program_refusals() -> Iterator[Check]:
    """The root program's refusals, the byte count first."""
    whole = program_input(T_NUMBERS + [1, 0, 0, 0])
    cases = [
        ("39 bytes", whole[:39], 10),
        ("one byte more", whole + b"\0", 10),
        ("65,544 bytes", bytes(65544), 10),
        ("65,536 bytes of 0", bytes(65536), 1),
        ("40 bytes", whole[:40], 6),
        ("an end within D", whole[:64], 6),
        ("an end after D", whole[:72], 6),
        ("an end within C", whole[:128], 6),
        ("an end after C", whole[:136], 10),
        ("a leaf short", whole[:-16], 10),
        ("a word more", whole + bytes(8), 10),
        ("a low number, cut short", program_input([4, 2, 33, 2, 0]), 5),
        ("not a word, cut short", program_input([4, 2, 1, 2, 0, P]), 6),
        ("not a word in D", program_input(T_NUMBERS[:5] + [P] + T_NUMBERS[6:]), 7),
        ("a leaf of p", program_input(T_NUMBERS + [1, 0, 0, P]), 12),
    ]
    for name, data, number in cases:
        yield name, program.run(data), f"refused {number}\n".encode()


GROUPS = [
    ("worked: field", worked_field),
    ("worked: layers", worked_layers),
    ("worked: permutation", worked_permutation),
    ("worked: tree", worked_tree),
    ("worked: program", worked_program),
    ("worked: validation", worked_validation),
    ("worked: place", worked_place),
    ("worked: extraction", worked_extraction),
    ("worked: word", worked_word),
    ("published instances", published_instances),
    ("field rules", field_rules),
    ("validation refusals", validation_refusals),
    ("handed sets", handed_sets),
    ("halves of M_E", halves_of_external),
    ("inverse permutations", inverse_permutations),
    ("elimination", elimination),
    ("diagonals", diagonals),
    ("vectors' cases", vectors_cases),
    ("tree_vectors' cases", tree_vectors_cases),
    ("replacements", replacements),
    ("extractions", extractions),
    ("sizes", sizes),
    ("trees", trees),
    ("leaf book", leaf_book),
    ("worked: counts", worked_counts),
    ("pushes: small lists", small_pushes),
    ("pushes: shared nodes", shared_pushes),
    ("histories", histories),
    ("pushes", pushes),
    ("tree refusals", tree_refusals),
    ("repeated places", repeated_places),
    ("program refusals", program_refusals),
    *file_checks.GROUPS,
    *set_checks.GROUPS,
]


def run_group(group: Callable[[], Iterator[Check]]) -> tuple[int, list[str]]:
    """How many checks of a group passed, and a line for each that failed."""
    right = 0
    wrong = []
    # Each check is compared before the group goes on and changes its lists.
    for case, got, expected in group():
        if got == expected:
            right += 1
        else:
            wrong.append(f"  {case}: got {got}, expected {expected}")
    return (right, wrong)


def main() -> int:
    """Runs every group; answers the exit status."""
    passed = failed = 0
    for name, group in GROUPS:
        right, wrong = run_group(group)
        passed += right
        failed += len(wrong)
        print(f"{name}: {right} passed, {len(wrong)} failed")
        for line in wrong:
            print(line)
    print(f"{passed} passed, {failed} failed")
    return 1 if failed else 0


if __name__ == "__main__":
    sys.exit(main())
