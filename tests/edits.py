"""Holds each must-fail edit to what it is for, by what `rt ci` or `rt must-fail` said of it: each `old:` stands once in its file and is not its
`new:`, the prover refuses the edited crate, and what it says first is that a fact does not hold, not that a proof no longer fits the code.

usage: edits.py LOG [NAME..], LOG being the file that has what rt printed; with names, the edits of these crates alone. The last line counts
the edits."""
import pathlib
import re
import sys

ROOT = pathlib.Path(__file__).resolve().parent.parent
EDIT = re.compile(r"file: ((?:src|specs|proofs)/.+)\n((?:old: .+\nnew: .*\n)+)")
# What rt says of an edit that the prover refuses: where, and what follows the name of the declaration there. rt says it otherwise of a text that
# cannot be read, of a proof that names what is gone, and of a limit that was met.
REFUSED = re.compile(r"^rt: must-fail (\w+)/(\S+)\.edit: refused, as it must be: (?:note: )?(\S+?):\d+:\d+: (?:error: )?(?:`[^`]*`: )?(.*)", re.M)
# What is said of a fact that does not hold: what code owes and fails at some numbers; terms that should be the same and are not; a case in which a goal
# is false; what rewriting leaves and is no equation of a term with itself. Anything else is said of a step that no longer fits.
FACTS = [re.compile(fact) for fact in (
    r"it is not proved that .*; the facts known there allow ",
    r"(as printed|computed as far as they go), the two (types|sides|values|indices) (differ|first differ|are)\b",
    r"expected type `(?!tie\.)",
    r"`omega`: the (goal|part `[^`]+` of the goal) does not follow from what it read\. All of that holds, and\b",
    r"give a proof of that as the last argument, `(rw|simp) L t`",
    r"`[^`]*`\s+≟ `[^`]*`:?\s+does not hold\b",
    # The same of a term so long that rt cuts what it says within it, with a space in it: no name has one.
    r"`[^`]+ [^`]{30,}$",
    r"this `\w+` lands at index `[^`]*` \(position \d+\) but the expected type `",
)]

# These leave a goal open that has no answer in a proof file, so that none can have been lost, and at which rt finds no numbers that make it
# false, as it is about lists. Each is false all the same. Of any other edit an open goal alone shows nothing: its answer may have another name.
OPEN = {
    ("program", "root_text-constants-from-start"),
    ("reader_entries", "reader-refused"),
    ("streams", "read_full-beyond-the-end"),
    ("streams", "read_full-failure-is-end"),
    ("streams", "read_full-stops-early"),
}


def fault(path, said):
    """What is wrong with an edit, or None, by what rt said of each that was refused."""
    crate, label = path.parent.parent, path.stem
    edit = EDIT.fullmatch(path.read_text(encoding="utf-8"))
    if not edit:
        return "it is not a line 'file:' and then lines 'old:' and 'new:'"
    file, pairs = edit.groups()
    source = crate / file
    text = source.read_text(encoding="utf-8") if source.is_file() else ""
    for old, new in re.findall(r"old: (.+)\nnew: (.*)\n", pairs):
        if text.count(old) != 1:
            return f"an 'old:' stands {text.count(old)} times in {file}"
        if old == new:
            return "it changes nothing"
        text = text.replace(old, new)
    if (crate.name, label) not in said:
        return "rt does not say that it was refused, and why"
    if (crate.name, label) in OPEN and said[crate.name, label].startswith("it is not proved that what the function ensures holds when it returns "):
        return None
    if not any(fact.match(said[crate.name, label]) for fact in FACTS):
        return f"what is said first is no fact: {said[crate.name, label]}"
    return None


said = {(crate, label): what for crate, label, _, what in REFUSED.findall(pathlib.Path(sys.argv[1]).read_text(encoding="utf-8"))}
passed = failed = 0
for path in sorted(ROOT.glob("crates/*/must-fail/*.edit")):
    crate = path.parent.parent.name
    if len(sys.argv) > 2 and crate not in sys.argv[2:]:
        continue
    what = fault(path, said)
    if what:
        failed += 1
        print(f"{crate}/{path.stem}: {what}")
    else:
        passed += 1
print(f"{passed} passed, {failed} failed")
sys.exit(failed > 0 or passed == 0)
