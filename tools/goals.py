#!/usr/bin/env python3
"""tools/goals.py LOG..: writes, for each mutant of the gate, the goal at which the prover rejects it, as a table in Markdown.

A log is the output of `rt ci` or of `rt must-fail`. For each file crates/*/must-fail/*.edit it has a line with the first goal that failed. The table
has the clause that the file names, and the function and the goal that the prover names. Its last column says whether this is a goal of the same function. The
status is 1 if no log has a line for a mutant, or if a proof file no longer fits the code of the mutant, so that no goal failed.
"""

import pathlib
import re
import sys

from edits import ROOT, apply, value

REFUSED = re.compile(r"^rt: must-fail (\w+)/([\w-]+)\.edit: refused, as it must be: (.*)$")
AT_SOURCE = re.compile(r"(?:note|error): (src/[\w/]+\.rt):(\d+):\d+: .*?\(`([^`]+)")
IN_PROOF = re.compile(r"\./proofs/([\w/]+)/(?:Answers|Invariants)\.antt:\d+:\d+: (?:error|note): `([^`]+)`")
FUNCTION = re.compile(r'^\s*(?:pub(?:\(\w+\))? )?(?:const )?(?:unsafe )?(?:extern "C" )?fn (\w+)')
SHAPE = re.compile(r"can be named from here|has no field|is not in scope|no goal")


def function_at(lines, number):
    """Returns the name of the function at a line: the one whose comments, attributes or head are there, or else the last one before."""
    for line in lines[number - 1 :]:
        found = FUNCTION.match(line)
        if found:
            return found.group(1)
        if not line.lstrip().startswith(("//", "#[")):
            break
    for line in reversed(lines[:number]):
        found = FUNCTION.match(line)
        if found:
            return found.group(1)
    return "?"


def mutated(crate, edit):
    """Returns the lines of each file that the edit changes."""
    return {path: text.split("\n") for path, text in apply(crate, edit).items()}


def goal_of(crate, edit, message):
    """Returns the function and the goal that a message names, or `None`."""
    found = IN_PROOF.search(message)
    if found:
        return found.group(1).split("/")[-1], found.group(2)
    found = AT_SOURCE.search(message)
    if not found:
        return None
    path, line, goal = found.groups()
    lines = mutated(crate, edit).get(path) or (crate / path).read_text(encoding="utf-8").split("\n")
    return function_at(lines, int(line)), goal


def row(file, message):
    """Returns the row of a mutant, and whether a goal failed."""
    edit = file.read_text(encoding="utf-8").split("\n")
    clause = value(edit[0], "clause")
    named = clause.split(",")[0].split("::")[-1]
    goal = None if SHAPE.search(message) else goal_of(file.parent.parent, edit, message)
    function, what = goal or ("-", message[:80].replace("|", "/"))
    same = "yes" if function == named else "no"
    return f"| {file.parent.parent.name} | {file.stem} | `{clause}` | `{function}` | `{what}` | {same} |", goal is not None


def main():
    messages = {}
    for log in sys.argv[1:]:
        for line in pathlib.Path(log).read_text(encoding="utf-8").split("\n"):
            found = REFUSED.match(line)
            if found:
                messages[found.group(1), found.group(2)] = found.group(3)
    print("| Crate | Mutant | Clause | Function of the goal | Goal | Same function |")
    print("|---|---|---|---|---|---|")
    is_right = True
    for file in sorted(ROOT.glob("crates/*/must-fail/*.edit")):
        key = file.parent.parent.name, file.stem
        if key not in messages:
            print(f"goals: no line for {key[0]}/{key[1]}", file=sys.stderr)
            is_right = False
            continue
        text, has_goal = row(file, messages[key])
        print(text)
        is_right = is_right and has_goal
    return 0 if is_right and messages else 1


if __name__ == "__main__":
    sys.exit(main())
