"""Matrices of words modulo p, as lists of rows: applied, multiplied, and by elimination their rank
and inverse.
"""

from collections.abc import Callable
from operator import mul

from field import P

Words = list[int]
Matrix = list[list[int]]


def times(matrix: Matrix, words: Words) -> Words:
    """A matrix applied to words: each row times the words, summed."""
    return [sum(map(mul, row, words)) % P for row in matrix]


def identity(size: int) -> Matrix:
    """The unit words of this size, in order."""
    return [[1 if column == row else 0 for column in range(size)] for row in range(size)]


def matrix_of(layer: Callable[[Words], Words], width: int) -> Matrix:
    """The t by t matrix of a linear layer; column i is the image of unit word i."""
    return [list(row) for row in zip(*map(layer, identity(width)))]


def product(left: Matrix, right: Matrix) -> Matrix:
    """The matrix that applies the right one, and then the left one."""
    return [list(row) for row in zip(*(times(left, list(column)) for column in zip(*right)))]


def eliminated(matrix: Matrix, columns: int) -> tuple[Matrix, int]:
    """Gaussian elimination in the first columns, and their rank: each that has a row of its own, a
    pivot, is 1 there and 0 in all other rows. These rows come first."""
    rows = [[n % P for n in row] for row in matrix]
    found = 0
    for column in range(columns):
        pivot = next((r for r in range(found, len(rows)) if rows[r][column] != 0), None)
        if pivot is None:
            continue
        rows[found], rows[pivot] = rows[pivot], rows[found]
        scale = pow(rows[found][column], -1, P)
        rows[found] = [n * scale % P for n in rows[found]]
        for r, row in enumerate(rows):
            if r != found and row[column] != 0:
                rows[r] = [(a - row[column] * b) % P for a, b in zip(row, rows[found])]
        found += 1
    return (rows, found)


def rank(matrix: Matrix) -> int:
    """How many of the rows are independent; a square matrix has an inverse if all of them are."""
    return eliminated(matrix, len(matrix[0]))[1]


def inverse_matrix(matrix: Matrix) -> Matrix:
    """The inverse, by elimination on the matrix beside the identity; there has to be one."""
    size = len(matrix)
    beside = [row + unit for row, unit in zip(matrix, identity(size))]
    rows, found = eliminated(beside, size)
    assert found == size, "the matrix has no inverse"
    return [row[size:] for row in rows]
