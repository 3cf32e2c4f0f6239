#!/usr/bin/env python3
"""Checks that every mutant, a deliberately wrong implementation, still applies: crates/*/must-fail/*.edit and crates/*/mutants/*.edit.

A file of `must-fail/` first names the clause that rejects it: `clause: FUNCTION`, or `clause: FUNCTION, NAME` if the function has several. Then an
edit names a file of its crate by a line `file: PATH`, and changes it by pairs of lines `old: TEXT` and `new: TEXT`, in order: each later pair
applies to the result of the earlier ones. Nothing is written: the pairs are applied to a copy of the file in memory. An edit is bad if it names
no clause of a function of its crate although it is one of the gate's, if it names no file of its crate or has no pair, if a line `old:` has no line `new:` after it, if an
old text does not occur exactly once, or if the result is the original. Prints each bad edit and the counts. The status is 1 if an edit is bad,
or if there are no edits.

The prover does not run here: tools/mutants.sh and the gate check that it rejects the mutants.
"""

import pathlib
import re
import sys

ROOT = pathlib.Path(__file__).resolve().parent.parent


class BadEdit(Exception):
    """The reason why an edit does not apply."""


def value(line, key):
    """Returns the text after `key: `, or `None` if the line has another key."""
    if line == key + ":":
        return ""
    return line[len(key) + 2 :] if line.startswith(key + ": ") else None


def check_clause(crate, line):
    """Checks that the line names a clause of a function of the crate."""
    clause = value(line, "clause")
    if not clause:
        raise BadEdit("no clause in the first line")
    function = clause.split(",")[0].split("::")[-1]
    declared = re.compile(rf"\bfn {re.escape(function)}\b")
    if not any(declared.search(file.read_text(encoding="utf-8")) for file in crate.glob("src/**/*.rt")):
        raise BadEdit(f"no function {function}")


def original(crate, path):
    """Returns the text of a file of the crate."""
    file = (crate / path).resolve()
    if crate not in file.parents or not file.is_file():
        raise BadEdit(f"no file {path}")
    return file.read_text(encoding="utf-8")


def replaced(text, old, new):
    """Returns the text with its only occurrence of `old` replaced by `new`."""
    count = text.count(old) if old else 0
    if count != 1:
        raise BadEdit(f"the old text occurs {count} times: {old}")
    return text.replace(old, new)


def apply(crate, lines):
    """Applies the lines of an edit to copies of the crate's files, and returns the copies."""
    originals, copies, file, old = {}, {}, None, None
    for line in lines:
        if (path := value(line, "file")) is not None:
            file = path
            if file not in copies:
                originals[file] = copies[file] = original(crate, file)
        elif (text := value(line, "old")) is not None:
            if old is not None:
                raise BadEdit("two old texts in a row")
            old = text
        elif (text := value(line, "new")) is not None:
            if file is None or old is None:
                raise BadEdit("a new text without a file or an old text before it")
            copies[file] = replaced(copies[file], old, text)
            old = None
    if old is not None:
        raise BadEdit("an old text without a new one")
    if originals == copies:
        raise BadEdit("nothing changes")
    return copies


def main():
    counts = {}
    bad = 0
    for folder in ("must-fail", "mutants"):
        paths = sorted(ROOT.glob(f"crates/*/{folder}/*.edit"))
        counts[folder] = len(paths)
        for path in paths:
            lines = path.read_text(encoding="utf-8").split("\n")
            try:
                if folder == "must-fail":
                    check_clause(path.parent.parent, lines[0])
                apply(path.parent.parent, lines)
            except BadEdit as reason:
                bad += 1
                print(f"edits: {path.relative_to(ROOT)}: {reason}")
    total = sum(counts.values())
    print(f"edits: {total - bad} of {total} apply; the gate tries {counts['must-fail']} of them")
    sys.exit(1 if bad or not total else 0)


if __name__ == "__main__":
    main()
