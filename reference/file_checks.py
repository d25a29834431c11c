"""Checks of the leaves of files (docs/RULES.md, 7.7 to 7.11), which selftest.py runs.

The groups yield checks (name, got, expected), as those of selftest.py do.
"""

import hashlib
import os
import shutil
import subprocess
from collections.abc import Iterator

import file_cases
import files
import poseidon2
from cases import (
    LARGEST,
    SIZES,
    STATE_BASES,
    case_t,
    case_u,
    faulted,
    highest,
    seeded,
    set_faults,
)
from field import P
from generator import drawn_numbers
from parameters import ParameterSet

Check = tuple[str, object, object]

SQUARES = bytes(i * i % 256 for i in range(1000))
UTF_8 = "Größe, 大きさ, μέγεθος 🌳\n".encode()

# A file, and the name that Git gives it.
GIT_NAMES = [
    (b"", "e69de29bb2d1d6434b8b29ae775ad8c2e48c5391"),
    (b"hello\n", "ce013625030ba8dba906f756967f9e9ca394464a"),
    (b"a", "2e65efe2a145dda7ee51d1741299f848e5bf752e"),
    (b"\x01", "6b2aaa7640726588bcd3d57e1de4b1315b7f315e"),
    (b"\0", "f76dd238ade08917e6712764a16a22005a50573d"),
    (b"123456789", "e2e107ac61ac259b87c544f6e7a4eb03422c6c21"),
    (b"1234567890", "6a537b5b367880eac21e3c0f0a382de7a19bd30a"),
    (b"q" * 99, "e04580f2cc1b13889d621430b6b50553d9e6c515"),
    (b"q" * 100, "de5be123e50caec9dcc35d036032a28a1308ad0d"),
    (b"line\r\n" * 166 + b"end", "80b625c0844664c8a8ead71bd32b4655f9a157dc"),
    (SQUARES, "486689d461f987a9fdcbdb4a6b2f74415e07fe59"),
    (b"\xff" * 9999, "6b788f3c187f3c48353e9ff82b963a0f63a77af9"),
    (b"\xff" * 10000, "ae2defc0b65d42eae0d1f3cd4a7f51d216641b1a"),
    (b"ends in\x01", "15a9494211f305dd26c2a01e4e38d13afc27562f"),
    (b"ends in\x01\0\0", "d9395e9741b002c860c7786206b6b8da805fd4e4"),
    (b"ends in" + bytes(5), "7c20fad0fcfa491c6919ccb07ec58baa61c67b77"),
    (bytes(64), "9017fd98b5f67d928cc64c59b2c025472ce74f8c"),
    (b"a\0b\0\0c", "0d902eb0dcf51694dbf982481989c5e8ad9e36a7"),
    (bytes(range(256)), "c86626638e0bc8cf47ca49bb1525b40e9737ee64"),
    (UTF_8, "53a9423b07ec48f8cfa2b2a5dc713e9466e7b959"),
    (b"blob 0\0", "b720c79b73c9e315cd77b89758ea1840b253e379"),
]


def asked_of_git(contents: bytes) -> list[str]:
    """The name that Git gives a file, if it is on this machine."""
    git = shutil.which("git")
    if git is None:
        return []
    # Nothing here depends on a repository.
    env = {k: v for k, v in os.environ.items() if not k.startswith("GIT_")}
    run = subprocess.run(
        [git, "hash-object", "--stdin"],
        input=contents,
        capture_output=True,
        cwd="/",
        env=env | {"GIT_DEFAULT_HASH": "sha1"},
    )
    return [run.stdout.decode().strip()]


def git_names() -> Iterator[Check]:
    """Git's name of a file is the SHA-1 of its message."""
    for contents, name in GIT_NAMES:
        digest = hashlib.sha1(files.message(contents), usedforsecurity=False)
        got = {digest.hexdigest(), *asked_of_git(contents)}
        yield f"{len(contents)} bytes, {contents[:9]}", got, {name}


def worked_files() -> Iterator[Check]:
    """Words that can be followed by hand, and leaves of one and two message blocks."""
    yield "words of no bytes", files.file_words(b"", 2), [0x003020626F6C62, 1]
    yield "words of a", files.file_words(b"a", 2), [0x003120626F6C62, 0x0161]
    full = [0x003620626F6C62, 0x016F6C6C656820]
    yield "words of 6 bytes", files.file_words(b" hello", 2), full
    more = [0x003720626F6C62, 0x0A6F6C6C656820, 1, 0]
    yield "words of 7 bytes", files.file_words(b" hello\n", 2), more
    for name, s in (("T", case_t().handed()), ("U", case_u().handed())):
        _, state = poseidon2.permute(s, [0x003020626F6C62, 1, 0, 0])
        got = files.leaf_of_file(s, b"", 2)
        yield f"no bytes under {name}", got, ("words", state[:2])
        _, state = poseidon2.permute(s, [0x003720626F6C62, 0x0A6F6C6C656820, 0, 0])
        _, state = poseidon2.permute(s, [(state[0] + 1) % P, *state[1:]])
        got = files.leaf_of_file(s, b" hello\n", 2)
        yield f"7 bytes under {name}", got, ("words", state[:2])
    # All numbers of so many bytes are words, and not all of one byte more.
    b = files.WORD_BYTES
    yield "bytes of a word", (256**b <= P, 256 ** (b + 1) <= P), (True, False)


def drawn_bytes(seed: int, count: int) -> bytes:
    """Drawn contents."""
    return bytes(n % 256 for n, _ in zip(drawn_numbers(seed), range(count)))


def sized_contents() -> Iterator[tuple[int, int, bytes]]:
    """Every width and node size, with every length from 0 to three message blocks."""
    for i, (t, l) in enumerate(SIZES):
        data = drawn_bytes(900 + i, 3 * 7 * (t - l))
        for length in range(len(data) + 1):
            yield t, l, data[:length]


def padding() -> Iterator[Check]:
    """01 and zeros: no fewer would do, and with these the count is a multiple."""
    for t, l, contents in sized_contents():
        block = 7 * (t - l)
        data = files.message(contents)
        zeros = 0
        while (len(data) + 1 + zeros) % block != 0:
            zeros += 1
        wanted = data + b"\x01" + b"\0" * zeros
        yield f"t={t}, l={l}, {len(contents)} bytes", files.padded(data, block), wanted


def unpacked(words: list[int]) -> bytes | None:
    """The contents that words come from, if they are a file's."""
    data = bytes(n >> 8 * i & 255 for n in words for i in range(7)).rstrip(b"\0")
    head, _, contents = data[:-1].partition(b"\0")
    is_file = data[-1:] == b"\x01" and head == f"blob {len(contents)}".encode()
    return contents if is_file else None


def packing() -> Iterator[Check]:
    """The contents can be had back from the words, which fill message blocks."""
    for t, l, contents in sized_contents():
        words = files.file_words(contents, t - l)
        got = unpacked(words), len(words) % (t - l), max(words) < 256**7
        yield f"t={t}, l={l}, {len(contents)} bytes", got, (contents, 0, True)


def near_misses(data: bytes, block: int) -> Iterator[bytes]:
    """Contents that padding could make alike."""
    whole = files.padded(files.message(data), block)
    tails = [b"", b"\x01", b"\0", b"\0\0", b"\x01\0", b"\x01\0\0", b"\x01\x01"]
    tails += [bytes(7), bytes(block), b"\x01" + bytes(block)]
    tails.append(whole[len(files.message(data)) :])
    for tail in tails:
        yield data + tail
        yield tail + data + b"\xff"
    yield files.message(data)
    yield whole
    yield whole[:-1]


def different_words() -> Iterator[Check]:
    """Different contents have different words, from which they can be had back."""
    for size in range(1, 13):
        for length in (0, 1, 7 * size - 9, 7 * size - 8, 14 * size - 9):
            data = drawn_bytes(length, max(length, 0))
            made = set(near_misses(data, 7 * size))
            words = {tuple(files.file_words(contents, size)) for contents in made}
            got = len(words), {unpacked([*one]) for one in words}
            yield f"t - l = {size}, {len(data)} bytes", got, (len(made), made)


def streamed(contents: bytes) -> Iterator[int]:
    """The bytes of a file's message, and 01."""
    digits = []
    rest = len(contents)
    while not digits or rest > 0:
        digits.insert(0, 48 + rest % 10)
        rest //= 10
    yield from (98, 108, 111, 98, 32, *digits, 0, *contents, 1)


def leaf_by_bytes(s: ParameterSet, contents: bytes) -> list[int]:
    """The leaf, with the bytes added to the state one after another."""
    state, place = [0] * s.width, 0
    end = 7 * (s.width - s.node_size)
    for byte in streamed(contents):
        if place == end:
            _, state = poseidon2.permute(s, state)
            place = 0
        word = place // 7
        state[word] = (state[word] + byte * 256 ** (place % 7)) % P
        place += 1
    return poseidon2.permute(s, state)[1][: s.node_size]


def leaves_of_files() -> Iterator[Check]:
    """The leaf is the one that the bytes make one by one."""
    for i, (t, l, contents) in enumerate(sized_contents()):
        s = seeded(t, l, i % (highest(t, l) + 1), 2 + 2 * (i % 6), i % 65, i).handed()
        got, wanted = files.leaf_of_file(s, contents, l), leaf_by_bytes(s, contents)
        yield f"t={t}, l={l}, {len(contents)} bytes", got, ("words", wanted)
    for contents, _ in GIT_NAMES:
        s = seeded(12, 4, 2, 8, 22, len(contents)).handed()
        wanted = ("words", leaf_by_bytes(s, contents))
        yield f"{len(contents)} bytes", files.leaf_of_file(s, contents, 4), wanted
        yield f"{len(contents)} numbers", files.leaf_of_file(s, [*contents], 4), wanted


class Unread:
    """Contents that have a length and can't be read."""

    def __init__(self, length: int):
        self.length = length

    def __len__(self) -> int:
        return self.length


def file_refusals() -> Iterator[Check]:
    """Each refusal by lengths alone, the first where several apply; nothing is read."""
    most = 4294967295
    for base in STATE_BASES:
        l = base.node_size
        for number, ways in set_faults(base).items():
            for i, fault in enumerate(ways):
                case = faulted(base, (number, fault))
                for leaf, length in ((l, 0), (l + 1, 0), (l, most + 1), (0, most + 1)):
                    got = files.leaf_of_file(case.handed(), Unread(length), leaf)
                    name = f"{number} in way {i}, leaf of {leaf}, {length} bytes"
                    yield name, got, ("refused", number)
        s = base.handed()
        for leaf in (0, l - 1, l + 1, base.width, LARGEST):
            for length in (0, most, most + 1):
                got = files.leaf_of_file(s, Unread(length), leaf)
                yield f"leaf of {leaf}, {length} bytes", got, ("refused", 10)
        for length in (most + 1, 2**33, 2**63 - 1):
            got = files.leaf_of_file(s, Unread(length), l)
            yield f"{length} bytes", got, ("refused", 16)
        for length in (0, 1, most - 1, most):
            yield f"not {length} bytes", files.refusal_of_file(s, l, length), None


def leaves_of(line: file_cases.Files) -> list[list[int]]:
    """The leaves of a line's files."""
    return [files.file_leaf(line.case.handed(), contents) for contents in line.each()]


def file_vectors_cases() -> Iterator[Check]:
    """Each line is refused with the number that it is made for, and all of its input
    fits. What the places hold that aren't used changes no leaf."""
    for line in file_cases.all_files():
        s, leaf, wanted = line.case.handed(), line.case.node, line.case.refusal
        lengths = [len(contents) for contents in line.each()]
        got = [files.refusal_of_file(s, leaf, length) or 0 for length in lengths]
        yield f"{line}", got, [wanted] * len(lengths)
    leaves = [leaf for line in file_cases.unused_places() for leaf in leaves_of(line)]
    for i in range(0, len(leaves), 3):
        yield f"places beyond, {i}", leaves[i : i + 3], leaves[i : i + 1] * 3
    size = sum(len(line) + 1 for line in file_cases.lines())
    yield "bytes of input", size <= 60000, True


GROUPS = [
    ("Git's names of files", git_names),
    ("worked: files", worked_files),
    ("files: padding", padding),
    ("files: packing", packing),
    ("files: different words", different_words),
    ("leaves of files", leaves_of_files),
    ("file refusals", file_refusals),
    ("file_vectors' cases", file_vectors_cases),
]
