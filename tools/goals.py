#!/usr/bin/env python3
"""Prints docs/EDITS.md's table from a log of `rt ci` or `rt must-fail`: for each must-fail edit the function, or the lemma, and the
goal of the first error.

    ./test | tee LOG; python3 tools/goals.py LOG > table
"""
import re
import sys
from pathlib import Path

CRATES = Path(__file__).resolve().parent.parent / "crates"
LINE = re.compile(r"rt: must-fail (\S+?)/(\S+?)\.edit: refused, as it must be: (.*)")
CODE = re.compile(r"note: (src/\S+?):(\d+):\d+: (.*)")
PROOF = re.compile(r"\./proofs/(\S+?)\.antt:\d+:\d+: error: (.*)")
GOAL = re.compile(r"\(`([^`]+)`\)")
MOST = 140  # characters of a message


def function(crate, file, line):
    """The function that stands at a line: the next one below its attributes, or the last one before."""
    lines = (CRATES / crate / file).read_text(encoding="utf8").splitlines()
    at = line - 1
    while lines[at].lstrip().startswith("#["):
        at += 1
    for text in reversed(lines[: at + 1]):
        if found := re.match(r"\s*(?:pub(?:\(crate\))? )?(?:extern \"C\" )?fn (\w+)", text):
            return found[1]
    return file


def cut(message):
    """The front of a message, in one cell of the table; rt cuts it too, so its code marks may be open."""
    front = message[:MOST].replace("|", "\\|")
    if front.count("`") % 2:
        return front + "…`"
    return front if len(message) <= MOST else front + "…"


def first_error(crate, said):
    if found := CODE.match(said):
        file, line, message = found.groups()
        goal = GOAL.search(message)
        values = "; values that make it false are known" if "allow values at which" in said else ""
        return f"{function(crate, file, int(line))} `{goal[1] if goal else cut(message)}`: not proved{values}"
    if found := PROOF.match(said):
        place, message = found.groups()
        name = place.removesuffix("/Answers").removesuffix("/Invariants").replace("+", "")
        return f"{name} {cut(message)}"
    return cut(said)


rows = {}
for text in open(sys.argv[1], encoding="utf8"):
    if found := LINE.match(text):
        rows[found[1], found[2]] = first_error(found[1], found[3].strip())
print("| edit | refused by |\n|---|---|")
for (crate, edit), by in sorted(rows.items()):
    print(f"| {crate}/{edit} | {by} |")
print(f"{len(rows)} edits", file=sys.stderr)
