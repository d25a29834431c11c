"""Makes openings that end in the same root from different leaves, for extraction.

No collision of a sound set is known, so each set here is made for its own
openings: it has R_F = 2 and R_P = 0, drawn words in D, and constants that are
solved for, or 0 where they are free. Write c for the first round's constants, e
for the last round's, M for M_E, and raise for the 7th power of every word. A row
x compresses to the first l words of

    M raise(y + e) + x      where g = M x + c and y = M raise(g).

Two rows are a pair, and a pair is chosen by its states g: this fixes both y, and
the difference of the rows, whatever c is. That the compressions of a pair
differ by a wanted node is then l linear equations in the t differences

    (y_i + e_i)^7 - (z_i + e_i)^7

each of which has one constant in it. Where all but l of them are known, the
equations give the others, and each of these is a polynomial of degree six in
its e_i, which two times in five has a root. Else the pair is drawn anew.

Several levels share e, so each has l places of its own in it. A level's pair is
drawn so that y and z differ there, and at the places of levels that are solved
already: z is chosen, and its g is found by seventh roots. The levels are solved
from the upper end, where the compressions have to meet, since a level's wanted
difference is that of two nodes of the level above. As k × l = t, there are
places for k levels.

What is left is that the nodes themselves, and not only their differences, are
those of the rows above. With d = M^-1 c a row is M^-1 g - d, so this is linear
in d: the first node of d less the one at the path's place in the row above is
known. The path's places above level 0 are all different and none is 0.
"""

from collections.abc import Callable, Collection, Iterator
from dataclasses import dataclass

from field import P, SEVENTH_ROOT_EXPONENT
from generator import drawn_numbers
from matrices import Words, inverse_matrix, matrix_of, times
from merkle import verdict_rows
from parameters import ParameterSet, validate
from poseidon2 import add, cut, external_layer, subtract

# Roots of polynomials modulo p. A polynomial is its coefficients, that of the
# power 0 first; a divisor's last one is 1, and zero has none.

Polynomial = list[int]


def monic(f: Polynomial) -> Polynomial:
    """Without the zeros at its end, and divided by the last coefficient."""
    while f and f[-1] == 0:
        f = f[:-1]
    scale = pow(f[-1], -1, P) if f else 1
    return [n * scale % P for n in f]


def divided(f: Polynomial, by: Polynomial) -> tuple[Polynomial, Polynomial]:
    """The quotient, and what is left."""
    rest, quotient = list(f), []
    while len(rest) >= len(by):
        factor = rest.pop() % P
        quotient.append(factor)
        start = len(rest) + 1 - len(by)
        for i in range(len(by) - 1):
            rest[start + i] -= factor * by[i]
    return (quotient[::-1], [n % P for n in rest])


def common(f: Polynomial, g: Polynomial) -> Polynomial:
    """The greatest common divisor."""
    while g:
        f, g = g, monic(divided(f, g)[1])
    return f


def product(f: Polynomial, g: Polynomial, modulus: Polynomial) -> Polynomial:
    """A product modulo a polynomial."""
    made = [0] * (len(f) + len(g) - 1)
    for i, a in enumerate(f):
        for j, b in enumerate(g):
            made[i + j] += a * b
    return divided(made, modulus)[1]


def power_less(f: Polynomial, exponent: int, less: Polynomial, modulus: Polynomial) -> Polynomial:
    """A power less another polynomial, both of two coefficients, modulo one of more."""
    made = [1]
    for bit in bin(exponent)[2:]:
        made = product(made, made, modulus)
        if bit == "1":
            made = product(made, f, modulus)
    made += [0] * (2 - len(made))
    return monic(subtract(made[:2], less) + made[2:])


def roots(f: Polynomial, drawn: Iterator[int]) -> list[int]:
    """The roots of a polynomial of degree two or more, each once (Cantor and Zassenhaus)."""
    f = monic(f)
    # x^p - x is the product of all x - n, so that the common divisor has the roots.
    parts = [common(f, power_less([0, 1], P, [0, 1], f))]
    found = []
    while parts:
        f = parts.pop()
        if len(f) == 2:
            found.append(-f[0] % P)
        if len(f) > 2:
            # x + n is a square at about half of the roots.
            half = power_less([next(drawn) % P, 1], (P - 1) // 2, [1, 0], f)
            part = common(f, half)
            parts += [part, divided(f, part)[0]] if 1 < len(part) < len(f) else [f]
    return found


# Pairs of rows.

Pair = tuple[Words, Words]  # the states g of two rows


def before_last(g: Words) -> Words:
    """y = M raise(g)."""
    return external_layer([pow(word, 7, P) for word in g])


def raised_difference(y: int, z: int, e: int) -> int:
    """(y + e)^7 - (z + e)^7."""
    return (pow(y + e, 7, P) - pow(z + e, 7, P)) % P


def meeting(y: int, z: int, difference: int, drawn: Iterator[int]) -> int | None:
    """An e for which (y + e)^7 - (z + e)^7 is the difference, or None."""
    # With r half of y - z, and v = e + half of y + z, the difference is
    # (v + r)^7 - (v - r)^7, which has even powers of v alone.
    half = (P + 1) // 2
    r = (y - z) * half % P
    cubic = [2 * r**7 - difference, 42 * r**5, 70 * r**3, 14 * r]
    for square in roots([n % P for n in cubic], drawn):
        for v in roots([-square % P, 0, 1], drawn):
            return (v - (y + z) * half) % P
    return None


class Search:
    """Pairs of rows of a width and node size, and the last round's constants that they ask for."""

    def __init__(self, width: int, node_size: int, seed: int):
        self.width, self.node_size, self.seed = width, node_size, seed
        self.drawn = drawn_numbers(seed)
        self.diagonal = self.words(width)
        self.last = [0] * width
        self.solved = 0
        self.matrix = matrix_of(external_layer, width)
        self.unmatrix = inverse_matrix(self.matrix)

    def words(self, count: int) -> Words:
        """Drawn words."""
        return [next(self.drawn) % P for _ in range(count)]

    def confined(self) -> Pair:
        """A pair whose y differ at places of levels that are solved, and of the next."""
        end = self.solved + self.node_size
        g = self.words(self.width)
        apart = self.words(end) + [0] * (self.width - end)
        raised = subtract([pow(word, 7, P) for word in g], times(self.unmatrix, apart))
        return (g, [pow(word, SEVENTH_ROOT_EXPONENT, P) for word in raised])

    def apart(self, places: Collection[int]) -> Pair:
        """A pair whose rows differ in the words at these places alone. Where c is 0, the first row
        ends in 0."""
        row = self.words(self.width - 1) + [0]
        apart = [word if i in places else 0 for i, word in enumerate(self.words(self.width))]
        return (external_layer(row), external_layer(subtract(row, apart)))

    def row_difference(self, pair: Pair) -> Words:
        """The difference of a pair's rows."""
        return times(self.unmatrix, subtract(*pair))

    def solve(self, pair: Pair, wanted: Words) -> bool:
        """Sets the next l constants so that the pair's compressions differ as wanted, if there are
        such constants."""
        places = range(self.solved, self.solved + self.node_size)
        y, z = map(before_last, pair)
        known = [
            0 if i in places else raised_difference(y[i], z[i], self.last[i])
            for i in range(self.width)
        ]
        left = subtract(subtract(wanted, self.row_difference(pair)), external_layer(known))
        square = [[row[i] for i in places] for row in self.matrix[: self.node_size]]
        for i, difference in zip(places, times(inverse_matrix(square), left)):
            e = meeting(y[i], z[i], difference, self.drawn)
            if e is None:
                return False
            self.last[i] = e
        self.solved += self.node_size
        return True

    def solved_pair(self, make: Callable[[], Pair], wanted: Words) -> Pair:
        """The first pair made for which there are constants."""
        while not self.solve(pair := make(), wanted):
            pass
        return pair

    def node(self, g: Words) -> Words:
        """The node that a row compresses to, plus the first node of d."""
        last = [pow(word, 7, P) for word in add(before_last(g), self.last)]
        return add(external_layer(last), times(self.unmatrix, g))[: self.node_size]


# Pairs for each level. The node of level j is at place j + 1 of the row above it.


def words_apart(search: Search, places: Collection[int]) -> list[Pair]:
    """One pair, whose rows differ in the words at these places and compress alike."""
    return [search.solved_pair(lambda: search.apart(places), [0] * search.node_size)]


def nodes_apart(search: Search, nodes: tuple[int, ...]) -> list[Pair]:
    """One pair, whose rows differ in every word of these nodes and compress alike."""
    l = search.node_size
    return words_apart(search, [node * l + i for node in nodes for i in range(l)])


def meeting_at(search: Search, level: int) -> list[Pair]:
    """Pairs for the levels up to this one, where they compress alike, and not below it."""
    pairs = []
    wanted = [0] * search.node_size
    for place in range(level, -1, -1):
        pairs.insert(0, search.solved_pair(search.confined, wanted))
        wanted = cut(search.row_difference(pairs[0]), search.node_size)[place]
    return pairs


def meeting_twice(search: Search) -> list[Pair]:
    """Pairs for levels 0 and 1, both of which compress alike."""
    others = tuple(n for n in range(search.width // search.node_size) if n != 1)
    lower = search.solved_pair(search.confined, [0] * search.node_size)
    return [lower, *nodes_apart(search, others)]


# Openings.


@dataclass
class Collision:
    """A set, a root and a place, two leaves with siblings that are accepted, and the level that
    extraction gives. D is the drawn words of the seed."""

    set: ParameterSet
    seed: int
    root: Words
    place: int
    first: tuple[Words, Words]
    second: tuple[Words, Words]
    level: int


def rows_of(search: Search, pairs: list[Pair]) -> tuple[Words, list[tuple[Words, Words]]]:
    """The first round's constants, and each level's rows. Words of d that are free are 0."""
    l = search.node_size
    d = [0] * search.width
    for j, (below, above) in enumerate(zip(pairs, pairs[1:]), 1):
        node = cut(times(search.unmatrix, above[0]), l)[j]
        d[j * l : (j + 1) * l] = subtract(add(node, d[:l]), search.node(below[0]))
    rows = [tuple(subtract(times(search.unmatrix, g), d) for g in pair) for pair in pairs]
    return (external_layer(d), rows)


def offered(l: int, rows: list[Words], digits: list[int]) -> tuple[Words, Words]:
    """The leaf and the siblings of rows, one for each level, with the path's place in each."""
    nodes = [cut(row, l) for row in rows]
    others = [row[:n] + row[n + 1 :] for n, row in zip(digits, nodes)]
    return (nodes[0][digits[0]], [word for row in others for node in row for word in node])


def collision(search: Search, pairs: list[Pair], height: int, level: int, digit: int) -> Collision:
    """The collision of these pairs. The leaf is at the place `digit` of its row; above the pairs
    both openings have the same siblings."""
    t, l = search.width, search.node_size
    first_round, rows = rows_of(search, pairs)
    constants = first_round + search.last
    kind, s = validate(t, l, height, 2, 0, search.diagonal, constants)
    assert kind == "set"
    digits = [digit, *range(1, len(pairs))]
    place = sum(n * (t // l) ** j for j, n in enumerate(digits))
    upper = search.words((height - len(pairs)) * (t - l))
    sides = [offered(l, [pair[side] for pair in rows], digits) for side in range(2)]
    first, second = ((leaf, siblings + upper) for leaf, siblings in sides)
    _, root = verdict_rows(s, place, *first)
    return Collision(s, search.seed, root, place, first, second, level)
