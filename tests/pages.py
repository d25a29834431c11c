"""Holds the pages to what they speak of: a program that a page shows is the one that is run and prints what the reference does, a link
leads to a file, the header, the exported functions and the bindings name the same functions, every copy of the published numbers is that of
the reference, refusals have one order wherever they are listed, every entry of docs/ENTRIES.md has two must-fail edits named for it, and
outside the crates that CONTRIBUTING.md says may know it nothing names the prime. The last line counts the checks."""
import pathlib
import re
import subprocess
import sys

ROOT = pathlib.Path(__file__).resolve().parent.parent
sys.path.insert(0, str(ROOT / "reference"))

import cases  # noqa: E402
import published  # noqa: E402

PAGES = sorted(p for p in ROOT.rglob("*.md") if not {"target", "out"} & {*p.relative_to(ROOT).parts})
SHOWN = {"c": "examples/first.c", "rust": "bindings/rust/examples/first.rs"}
passed, wrong = 0, []


def check(holds, what):
    global passed
    if holds:
        passed += 1
    else:
        wrong.append(what)


def read(path):
    return (ROOT / path).read_text(encoding="utf-8")


front = read("README.md")
for language, path in SHOWN.items():
    blocks = re.findall(r"^```%s\n(.*?)^```$" % language, front, re.M | re.S)
    check(read(path) in blocks, f"README.md does not show {path} as it is")

printed = subprocess.run([sys.executable, ROOT / "examples/first.py"], stdout=subprocess.PIPE, text=True, check=True).stdout
check(printed.endswith("accepted\n"), "the reference does not accept the first example's opening")
for command in ["cargo run --release --offline --example first", "./first"]:
    shown = re.findall(r"^    .*%s\n((?:    .*\n)+)" % re.escape(command), front, re.M)
    check([re.sub(r"^    ", "", block, flags=re.M) for block in shown] == [printed], f"README.md shows another output of '{command}'")

[example] = re.findall(r"^//! ```\n(.*?)^//! ```$", read("bindings/rust/src/lib.rs"), re.M | re.S)
lines = [line[4:] for line in example.splitlines() if not line.startswith("//! # ")]
check("```rust\n%s\n```" % "\n".join(lines) in read("bindings/rust/README.md"), "bindings/rust/README.md shows another example than is run")

for page in PAGES:
    for target in re.findall(r"\]\(([^)#\s]+)(?:#[^)]*)?\)", page.read_text(encoding="utf-8")):
        if "://" not in target:
            check((page.parent / target).exists(), f"{page.relative_to(ROOT)} links to {target}, which is not there")

declared = set(re.findall(r"^uint8_t (opening_tree_\w+)\(", read("include/opening_tree.h"), re.M))
inlined = set(re.findall(r"^static inline uint8_t (opening_tree_\w+)\(", read("include/opening_tree.h"), re.M))
exported = {name for source in (ROOT / "crates/opening_tree_c/src").glob("*.rt")
            for name in re.findall(r'^pub extern "C" fn (\w+)', source.read_text(encoding="utf-8"), re.M)}
bound = set(re.findall(r"fn (opening_tree_\w+)\(", read("bindings/rust/src/sys.rs")))
called = set(re.findall(r"\b(opening_tree_\w+)\(", read("tests/link.c")))
check(len(exported) > 0, "no function is exported")
check(declared == exported, f"the header and the exported functions differ: {sorted(declared ^ exported)}")
check(bound == exported, f"the bindings and the exported functions differ: {sorted(bound ^ exported)}")
check(called == exported | inlined, f"tests/link.c does not call each function: {sorted(called ^ (exported | inlined))}")

entries = re.findall(r"^\| `(\w+)\(", read("docs/ENTRIES.md"), re.M)
check(len(entries) > 20, "docs/ENTRIES.md has no entries")
for entry in entries:
    edits = list(ROOT.glob(f"crates/*/must-fail/{entry}-*.edit"))
    check(len(edits) > 1, f"{entry} has {len(edits)} must-fail edits named for it")

# The order of the rules: their table, and the conditions of each entry, but for what 8.2 excepts.
rules, bindings = read("docs/RULES.md"), read("bindings/rust/src/refusal.rs")
table = rules[rules.index("**8.1**"):rules.index("**8.2**")]
order = [int(number) for number in re.findall(r"^\| (\d+) \|", table, re.M)]
numbers = dict(re.findall(r"^    (\w+) = (\d+),", bindings, re.M))
[tested] = re.findall(r"ALL: \[Refusal; \d+\] = \[(.*?)\];", bindings, re.S)
defined = re.findall(r"^#define OPENING_TREE_\w+ (\d+) +/\*", read("include/opening_tree.h"), re.M)
check(len(order) > 10 and len(set(order)) == len(order), "the table of refusals has none, or one twice")
check(cases.TESTED == order, "the reference's cases have another order of refusals")
check([int(numbers.get(name, 0)) for name in re.findall(r"Refusal::(\w+)", tested)] == order, "the bindings have another order of refusals")
check([int(number) for number in defined if number != "255"] == order, "the header has another order of refusals")
conditions = re.findall(r"^\| (`\w+`.*?) \| (.*?) \|", rules[rules.index("**8.8**"):rules.index("## 9")], re.M)
check(len(conditions) > 15, "docs/RULES.md has no conditions of entries")
for names, listed in conditions:
    given = [int(number) for number in re.findall(r"(?:^|; )(\d+)\b", listed)]
    if names.startswith("`root_text`"):
        given = given[1:]
    if len(given) > 1:
        check(given == sorted(given, key=order.index), f"{names}: the conditions are in another order than the table's")

KNOW_THE_PRIME = {"modular", "field", "roots", "layers", "permutation", "fields"}
NAMES = re.compile(r"Goldilocks|goldilocks|18446744069414584321|(?<!\w)(field|layers)::")
crates = {line.split(":")[0].split()[0] for line in read("crates.txt").splitlines() if line and not line.startswith("#")}
check(KNOW_THE_PRIME < crates, "crates.txt lacks a crate that knows the prime")
for crate in sorted(crates - KNOW_THE_PRIME):
    named = [path.relative_to(ROOT) for path in sorted((ROOT / "crates" / crate).rglob("*"))
             if path.suffix in (".rt", ".antt") and NAMES.search(path.read_text(encoding="utf-8"))]
    check(not named, f"the prime is named in {', '.join(map(str, named))}")

RUST, HEADER = "bindings/rust/src/published.rs", "include/opening_tree_published.h"


def lists(path, pattern):
    """The lists of numbers that a source declares, by name."""
    return {name: [int(n) for n in re.findall(r"\d+", body)] for name, body in re.findall(pattern, read(path), re.S)}


in_rust = lists(RUST, r"pub const (\w+): \[u64; \d+\] = \[(.*?)\];")
in_c = lists(HEADER, r"static const uint64_t (\w+)\[\d+\] \w+ = \{(.*?)\};")
known_in_rust = lists("bindings/rust/tests/published.rs", r"const (KNOWN_\d+): \[Known<\d+>; \d+\] = \[(.*?)\n\];")
known_in_c = lists("tests/link.c", r"static const uint64_t (known_\d+)(?:\[\d+\])* = \{(.*?)\n\};")
joined = re.sub(r"\s*\\\n\s*", " ", read(HEADER))
macros = dict(re.findall(r"^#define (OPENING_TREE_PUBLISHED_\d+)\(node_size, height\) (.*)$", joined, re.M))
check(len(published.INSTANCES) > 0, "the reference has no published instance")
for instance in published.INSTANCES:
    t, full, partial = instance["width"], instance["full_rounds"], instance["partial_rounds"]
    diagonal, constants = instance["diagonal"], instance["constants"]
    known = [n for state, permuted in instance["known_answers"] for n in state + permuted]
    names = f"opening_tree_published_diagonal_{t}", f"opening_tree_published_constants_{t}"
    handed = f"{t}, (node_size), (height), {full}, {partial}, {names[0]}, {len(diagonal)}, {names[1]}, {len(constants)}"
    for what, copy, own in [
        ("D of the bindings", in_rust.get(f"DIAGONAL_{t}"), diagonal),
        ("C of the bindings", in_rust.get(f"CONSTANTS_{t}"), constants),
        ("the rounds of the bindings", re.findall(r"ROUNDS: u64 = (\d+);", read(RUST)), [str(full), str(partial)]),
        ("D of the header", in_c.get(names[0]), diagonal),
        ("C of the header", in_c.get(names[1]), constants),
        ("the header's macro", macros.get(f"OPENING_TREE_PUBLISHED_{t}"), handed),
        ("a known answer in the bindings' tests", known_in_rust.get(f"KNOWN_{t}"), known),
        ("a known answer in tests/link.c", known_in_c.get(f"known_{t}"), known),
    ]:
        check(copy == own, f"{what}, t = {t}: not as in the reference")

for what in wrong:
    print(what)
print(f"{passed} passed, {len(wrong)} failed")
sys.exit(bool(wrong))
