#!/usr/bin/env python3
"""Reads what `rt ci` or `rt must-fail` printed, and fails where an edit was not refused, or where the first error says only that the proof no longer
fits the code.

A refusal is worth something if a fact is what fails: a wrong program has to be refused because its contract does not hold, not because a proof
names something that is no longer there. A right program that is written otherwise would be refused by such an error too. The toolchain prints a line
for each edit, with the beginning of the first error that no proof file brings about by a name that the edit took away; where there is no other, or
where only a limit of the prover ended the check, it says so. `tests/edits_reviewed.txt` lists the edits whose first error says nothing of a fact and
that were reviewed, each with the fact that fails beside it; an entry that is not needed is an error as well.

Usage: tests/edits.py [--some] LOG     (--some: edits that were not tried are passed over)
"""
import re
import sys
from pathlib import Path

ROOT = Path(__file__).resolve().parent.parent
LINE = re.compile(r"^rt: must-fail (\w+)/([\w.-]+)\.edit: (.*)$", re.M)
REFUSED = "refused, as it must be"
ERROR = re.compile(r"^(?:\./)?\S+:\d+:\d+: error: (?:`([^`]+)`: )?(.*)")
NOTE = re.compile(r"^note: \S+:\d+:\d+: it is not proved that ")
# said of a declaration that rests on another that was refused
FOLLOWS = re.compile(r"was not admitted")
# said of a proof that does not fit the code or the definitions any more
MISFIT = re.compile(
    r"can be named from here|has no field|no occurrence of|is not in scope|is no module|no module is found|has no constructor|"
    r"has no implicit argument|has no further|is no function of|names nothing|takes no argument|too many arguments|this pattern needs|this λ has \d+ binders|on the face `|replace that `_`|expected type `tie\.Need-"
)
WALKS = {"walk"}  # the declaration that follows the code step by step, in a proof by hand: an error in it is one about the code's shape


def complaint(said):
    """Why a line tells of no fact that fails; None if it does."""
    if not said.startswith(REFUSED):
        return said
    said = said.removeprefix(REFUSED)
    if said.startswith(" ("):
        return said.strip()
    first = said.removeprefix(": ")
    if not first:
        return "no error says why it was refused"
    if NOTE.match(first):
        return None
    m = ERROR.match(first)
    if not m:
        return f"no error says why it was refused: {first}"
    if m.group(1) in WALKS:
        return f"the walk of the code does not fit: {first}"
    return f"the proof does not fit: {first}" if MISFIT.search(first) or FOLLOWS.search(first) else None


def main():
    words = [w for w in sys.argv[1:] if w != "--some"]
    if len(words) != 1:
        sys.exit("usage: tests/edits.py [--some] LOG")
    some = "--some" in sys.argv[1:]
    reviewed = {}
    for line in (ROOT / "tests" / "edits_reviewed.txt").read_text().splitlines():
        if line and not line.startswith("#"):
            name, _, reason = line.partition(": ")
            reviewed[name] = reason
    lines = {f"{crate}/{edit}": said for crate, edit, said in LINE.findall(Path(words[0]).read_text())}
    faults, read = [], 0
    for path in sorted(ROOT.glob("crates/*/must-fail/*.edit")):
        name = f"{path.parts[-3]}/{path.stem}"
        if name not in lines:
            if not some:
                faults.append(f"{name}: was not tried")
            continue
        read += 1
        said = complaint(lines[name])
        if said and (name not in reviewed or not lines[name].startswith(REFUSED)):
            faults.append(f"{name}: {said}")
        if not said and name in reviewed:
            faults.append(f"{name}: is listed in tests/edits_reviewed.txt, and a fact fails")
    for name, reason in reviewed.items():
        if not (ROOT / "crates" / name.replace("/", "/must-fail/")).with_suffix(".edit").exists() or not reason:
            faults.append(f"tests/edits_reviewed.txt: no such edit, or no reason: {name}")
    for f in faults:
        print(f"edits: {f}", file=sys.stderr)
    print(f"edits: {read} lines on must-fail edits read, {len(reviewed)} reviewed, {len(faults)} faults")
    sys.exit(1 if faults else 0)


main()
