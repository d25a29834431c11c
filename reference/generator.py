"""The generator of 64-bit numbers that the reference and the programs share.

It holds a number x, which a seed starts. A draw does

    x = x xor (x shifted left by 13, modulo 2^64)
    x = x xor (x shifted right by 7)
    x = x xor (x shifted left by 17, modulo 2^64)

and the new x is the drawn number. Seed s starts it with x = 88172645463325252 + s,
modulo 2^64.
"""

from collections.abc import Iterator

START = 88172645463325252


def drawn_numbers(seed: int) -> Iterator[int]:
    """The drawn numbers, without end."""
    x = (START + seed) % 2**64
    while True:
        x ^= (x << 13) % 2**64
        x ^= x >> 7
        x ^= (x << 17) % 2**64
        yield x
