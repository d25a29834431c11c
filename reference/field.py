"""The field (docs/RULES.md, sections 1 and 7.1): words, and arithmetic modulo p.

Every entry takes any 64-bit numbers and answers a pair: ("word", n), or
("refused", r) where r is the number of the first refusal that applies.
"""

P = 18446744069414584321

# The seventh root undoes the 7th power, so its exponent is the inverse of 7
# modulo p - 1, the number of non-zero words.
SEVENTH_ROOT_EXPONENT = pow(7, -1, P - 1)

Answer = tuple[str, int]


def is_word(n: int) -> bool:
    """A word is below p; p is not one (Rules 1.2)."""
    return 0 <= n < P


def all_words(numbers: list[int]) -> bool:
    """Each of these numbers is a word: 12 doesn't apply to them."""
    return all(is_word(n) for n in numbers)


# This name hides Python's own sum in this file; nothing here needs that one.
def sum(a: int, b: int) -> Answer:
    """The sum modulo p (Rules 1.3)."""
    if not all_words([a, b]):
        return ("refused", 12)
    return ("word", (a + b) % P)


def difference(a: int, b: int) -> Answer:
    """The difference modulo p (Rules 1.3)."""
    if not all_words([a, b]):
        return ("refused", 12)
    return ("word", (a - b) % P)


def product(a: int, b: int) -> Answer:
    """The product modulo p of any two numbers (Rules 1.3, 1.8)."""
    return ("word", (a * b) % P)


def power(a: int, exponent: int) -> Answer:
    """The power modulo p of any number with any exponent; with 0 it is 1 (Rules 1.4, 1.8)."""
    return ("word", pow(a, exponent, P))


def inverse(a: int) -> Answer:
    """The word that gives 1 when multiplied by this one; 0 has none (Rules 1.5)."""
    if not is_word(a):
        return ("refused", 12)
    if a == 0:
        return ("refused", 13)
    return ("word", pow(a, -1, P))


def seventh_root(a: int) -> Answer:
    """The word that gives this one when raised to the power 7 (Rules 7.1)."""
    if not is_word(a):
        return ("refused", 12)
    return ("word", pow(a, SEVENTH_ROOT_EXPONENT, P))
