#!/usr/bin/env python3
"""Brings the definitions and lemmas of crates/ to the spelling of today's Rattle: snake case, a dash only between two names.

usage: python3 tools/respell.py         in the repository, once, right after the toolchain's own script
       python3 tools/respell.py table   prints the table, old and new, and writes nothing

Names of facts and types (a capital first) stay, and so do functions of src/, exported names, strings, inputs and outputs. A name is taken
where a file of specs/ or proofs/ declares it; it turns as a whole word in these files and in the clauses and `ghost use` items of src/.
A lemma that would get the name of a function or of another lemma gets `_lem`.
"""
import collections
import os
import re
import sys

WORD = r"[^\s(){}.;,@\"«»\[\]\\]+"
DECLARED = re.compile(
    r"^\s*(?:(?:abbrev|unfoldable)\s+)?(?:pub\s+)?(?:(?:record|data|ruleset)\s+)?(" + WORD + r")(?:\s+\{[^}]*\}|\s+\([^)]*\))*\s+:(?:\s|$)"
)
TOKEN = re.compile(r"--[^\n]*|\"(?:[^\"\\]|\\.)*\"|«[^»]*»|" + WORD)
CLAUSE = re.compile(r"\b(?:requires|ensures|ghost use)\b|\bghost\s+\w+\s*:")
OF_RATTLE = re.compile(r":\s+tie\.|-spec\s+:|_spec\s+:")
# Functions of the library that the names of lemmas join.
LIBRARY = set(
    "add sub mul div mod pow min max length take drop append get_or getD set sum map filter replicate reverse cons suc".split()
)
# Spelled by hand, where the rule would make two names one, or would split a name of the rules.
BY_HAND = {"treeOf": "tree_of_set", "bit-xor": "bit_of_xor", "unm4E": "unm4_e", "m4E": "m4_e", "dotE": "dot_e", "rowsE": "rows_e"}
# Lemmas whose names a definition takes.
LEMMAS = {n: n + "_lem" for n in "add_at all_words numbers_of one_more sub_at too_long".split()}


def files():
    for top, folders, names in os.walk("crates"):
        folders[:] = sorted(f for f in folders if f != "out")
        for name in sorted(names):
            if name.endswith((".antt", ".rt")):
                yield os.path.join(top, name)


def read(path):
    with open(path, encoding="utf-8", newline="") as f:
        return f.read()


def snake(part):
    part = re.sub(r"(?<=[a-z0-9])(?=[A-Z])", "_", part)
    return re.sub(r"[A-Z]", lambda m: m.group().lower(), part)


def declared():
    found = set()
    for path in files():
        if path.endswith(".antt"):
            for line in read(path).splitlines():
                m = DECLARED.match(line)
                # An answer to a goal, and the proof of a function, have names that Rattle makes.
                if m and not line.lstrip().startswith("--") and not (path.endswith("/Proof.antt") and OF_RATTLE.search(line)):
                    found.add(m.group(1))
    return found


def spelled(name, functions):
    if name in BY_HAND:
        return BY_HAND[name]
    lead = re.match(r"^\+?", name).group()
    parts = [snake(p) for p in name[len(lead):].split("-")]
    camel = re.search("[A-Z]", name)
    out, i = parts[0], 1
    left = parts[0]
    while i < len(parts):
        joins = (camel or left in LIBRARY) and left in functions and any("_".join(parts[i:j]) in functions for j in range(i + 1, len(parts) + 1))
        if joins:
            out += "-" + parts[i]
            left = parts[i]
        else:
            out += "_" + parts[i]
            left += "_" + parts[i]
        i += 1
    return lead + out


def table():
    names = {n for n in declared() if re.match(r"^\+?[a-z]", n) and re.search(r"[A-Z-]", n)}
    names = {n for n in names if re.fullmatch(r"\+?[A-Za-z0-9_'-]+", n) and "--" not in n and not n.endswith("-")}
    all_names = declared()
    functions = {snake(n) for n in all_names if re.fullmatch(r"[a-z][A-Za-z0-9_]*", n)} | LIBRARY
    rows, taken = {}, {n for n in all_names if n not in names and n not in LEMMAS} | set(LEMMAS.values())
    for n in sorted(names, key=lambda n: ("-" in n, n)):
        to = spelled(n, functions)
        while to in taken:
            to += "_lem"
        taken.add(to)
        if to != n:
            rows[n] = to
    return rows | LEMMAS


def turn(text, rows):
    def one(m):
        w = m.group()
        if w in LEMMAS and text[m.start() - 1 : m.start()] == ".":
            return w
        return rows.get(w, w)

    return TOKEN.sub(one, text)


def clause_end(text, at):
    """The end of the clause or item that begins at `at`."""
    if text.startswith("ghost use", at):
        return text.index(";", at) + 1
    i = text.index("{", at)
    depth = 0
    while True:
        depth += {"{": 1, "}": -1}.get(text[i], 0)
        i += 1
        if depth == 0:
            return i


def turn_source(text, rows):
    out, i = [], 0
    for m in CLAUSE.finditer(text):
        line = text[text.rfind("\n", 0, m.start()) + 1 : m.start()]
        if m.start() < i or "//" in line:
            continue
        if m.group() != "ghost use" and not re.match(r"\s*(?:\w+\s*)?\{", text[m.end():]):
            continue
        end = clause_end(text, m.start())
        out += [text[i : m.start()], turn(text[m.start() : end], rows)]
        i = end
    return "".join(out) + text[i:]


def main(argv):
    rows = table()
    if argv == ["table"]:
        for old, new in sorted(rows.items()):
            print(old + "\t" + new)
        return 0
    for path in files():
        old = read(path)
        new = turn(old, rows) if path.endswith(".antt") else turn_source(old, rows)
        if new != old:
            with open(path, "w", encoding="utf-8", newline="") as f:
                f.write(new)
    return 0


if __name__ == "__main__":
    raise SystemExit(main(sys.argv[1:]))
