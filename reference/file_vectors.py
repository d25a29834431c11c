"""Prints what the program `file_vectors` must print, worked out by this reference.

The program's input is what file_cases.py makes. Each file is a line

    T L H F R bytes N leaf_of_file A

where N is how many bytes the contents have, and A is the answer as in the
section states that vectors.py describes, in full.
"""

from collections.abc import Iterator

import file_cases
from file_cases import Files
from files import leaf_of_file
from parameters import ParameterSet
from vectors import Called, case_line, in_full


def to_leaf(s: ParameterSet, contents: bytes, length: int) -> Called:
    """The leaf of a file, to a buffer of sevens; a refusal leaves it as it was."""
    kind, answer = leaf_of_file(s, contents, length)
    return (None, answer) if kind == "words" else (answer, [7] * length)


def files_lines(files: Files) -> Iterator[str]:
    """The line of each file."""
    s = files.case.handed()
    for contents in files.each():
        leaf = in_full(to_leaf(s, contents, files.case.node))
        yield case_line(files.case, "bytes", str(len(contents)), "leaf_of_file", leaf)


if __name__ == "__main__":
    for files in file_cases.all_files():
        for line in files_lines(files):
            print(line)
