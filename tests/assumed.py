"""Holds what is assumed to reading and writing, in the programs alone, once `rt ci` has proved the crates and built the programs. Each crate is
proved, and stands on crates of this repository and on std; rt ci refuses C functions of a crate's own, and says that no handle is allowed. A
crate that was proved in this run assumes no C function, or in a program those by which std reads, writes and names an error. A program, as
either compiler builds it, calls nothing of the C library but these and what a process starts and ends by; so it takes no memory.

usage: assumed.py LOG, the file that has what rt ci printed. The last line counts a check for each crate, and one for each built program.
"""

import re
import subprocess
import sys
from collections.abc import Iterator
from pathlib import Path

REPOSITORY = Path(__file__).resolve().parent.parent
CRATES = REPOSITORY / "crates"
LISTED = re.compile(r"^(\w+)(?: staticlib)?:((?: \w+)*)$", re.M)
# The C functions whose contracts a program's proof rests on.
ASSUMED = {"libc::read", "libc::write", "os::c::__xpg_strerror_r", "os::c::rattle_errno"}
# What a built program may call of the C library.
INPUT_AND_OUTPUT = {"read", "write", "__write"}
ERRORS = {"__errno_location", "__xpg_strerror_r"}
COPIES = {"memcpy", "memmove", "memset", "memcmp"}
PROCESS = {"__libc_start_main", "__cxa_finalize", "__gmon_start__", "__sysv_signal", "__x86_get_cpuid_feature_leaf"}
TABLES = {"_ITM_deregisterTMCloneTable", "_ITM_registerTMCloneTable"}
MAY_CALL = INPUT_AND_OUTPUT | ERRORS | COPIES | PROCESS | TABLES


def assumed(said: str) -> Iterator[tuple[str, set[str]]]:
    """The crates that were proved in this run, each with the C functions that it assumes."""
    for crate, section in re.findall(r"^== (\w+)\n(.*?)^rt: \1 proved$", said, re.M | re.S):
        reached = re.findall(r"^axioms \w+: (?!none reached of )(.*) \(\d+ of the \d+ declared\)$", section, re.M)
        yield crate, {name for names in reached for name in names.split(", ")}


def calls(program: Path) -> set[str]:
    """The functions of the C library that a program calls."""
    said = subprocess.run(["nm", "-D", "--undefined-only", program], check=True, capture_output=True, text=True).stdout
    return {line.split()[-1].partition("@")[0] for line in said.splitlines()}


def faults(said: str) -> Iterator[str | None]:
    """For each crate and each built program what is wrong, or None."""
    listed = {name: uses.split() for name, uses in LISTED.findall((REPOSITORY / "crates.txt").read_text(encoding="utf-8"))}
    programs = sorted(file.parent.name for file in CRATES.glob("*/stdout"))
    reached = dict(assumed(said))
    for crate in sorted({file.parent.parent.name for file in CRATES.glob("*/src/*.rt")} | {*listed}):
        beyond = [it for it in listed.get(crate, []) if it not in listed]
        if crate not in listed:
            yield f"crates.txt does not list {crate}"
        elif crate not in reached and not re.search(rf"^rt: {crate} is kept: ", said, re.M):
            yield f"rt ci does not say that {crate} is proved"
        elif beyond:
            yield f"{crate} stands on {', '.join(beyond)}"
        elif crate in reached and reached[crate] != (ASSUMED if crate in programs else set()):
            yield f"{crate} assumes {', '.join(sorted(reached[crate])) or 'nothing'}"
        else:
            yield None
    for crate in programs:
        for program in (CRATES / crate / "out" / crate, CRATES / crate / "out" / f"{crate}.by-rattle"):
            called = calls(program)
            if called - MAY_CALL or not {"read", "write"} <= called:
                yield f"{program.relative_to(REPOSITORY)} calls {', '.join(sorted(called - MAY_CALL)) or 'not both read and write'}"
            else:
                yield None


passed = failed = 0
for fault in faults(Path(sys.argv[1]).read_text(encoding="utf-8")):
    if fault:
        failed += 1
        print(fault)
    else:
        passed += 1
print(f"{passed} passed, {failed} failed")
sys.exit(failed > 0 or passed == 0)
