"""The root program (docs/RULES.md, 7.5 and 7.6): bytes in, bytes out."""

import sys

from merkle import storeless_root
from parameters import constant_count, refusal_of_numbers, validate

MOST_BYTES = 65536


def numbers_of(data: bytes) -> list[int]:
    """The numbers of some bytes, eight for each, the lowest first."""
    return [int.from_bytes(data[i : i + 8], "little") for i in range(0, len(data), 8)]


def refused(number: int) -> bytes:
    """The line of a refusal."""
    return f"refused {number}\n".encode()


def run(data: bytes) -> bytes:
    """The program's standard output for its standard input."""
    # The byte count comes first.
    if len(data) < 40 or len(data) > MOST_BYTES or len(data) % 8 != 0:
        return refused(10)
    numbers = numbers_of(data)
    width, node_size, height, full_rounds, partial_rounds = numbers[:5]
    number = refusal_of_numbers(width, node_size, height, full_rounds, partial_rounds)
    if number is not None:
        return refused(number)
    # Where the numbers end too early one of these two is too short, and
    # validation answers 6.
    diagonal_end = 5 + width
    constants_end = diagonal_end + constant_count(width, full_rounds, partial_rounds)
    kind, validated = validate(
        width,
        node_size,
        height,
        full_rounds,
        partial_rounds,
        numbers[5:diagonal_end],
        numbers[diagonal_end:constants_end],
    )
    if kind == "refused":
        return refused(validated)
    kind, answer = storeless_root(validated, numbers[constants_end:])
    if kind == "refused":
        return refused(answer)
    return "".join(f"{word}\n" for word in answer).encode()


if __name__ == "__main__":
    sys.stdout.buffer.write(run(sys.stdin.buffer.read()))
