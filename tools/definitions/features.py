"""features.py ROOT WORK: computes in the prover which features of the text format `read` covers, and prints the table.

tools/definitions.sh calls it.
"""

import os
import sys
import tempfile

from feature_texts import FEATURES
from prover import Scratch, prove
from report import head
from rows import Case
from running import found, run, write
from tables import table
from texts import ASSEMBLERS

UNLISTED = "**not listed**"


def accepted(text):
    """Returns for each assembler whether it accepts a text."""
    with tempfile.TemporaryDirectory(prefix="wasmprinter-definitions-") as folder:
        path = write(os.path.join(folder, "text.wat"), text)
        return ["yes" if run([found(program), *words, path, "-o", os.devnull]).status == 0 else "no" for _, program, words in ASSEMBLERS]


def shown_text(text):
    """Returns a text as a cell of the table: control characters as escapes."""
    return "".join(char if char.isprintable() else repr(char)[1:-1] for char in text)


def main(root, work):
    cases = [Case(feature, ("reads", "unread"), text=feature[2].encode()) for feature in FEATURES]
    prove(Scratch(root, os.path.join(work, "scratch")), cases)
    lines = []
    for case in cases:
        part, name, text, why = case.label
        verdict = "read" if case.held == "reads" and not why else f"not read: {why}" if case.held == "unread" and why else UNLISTED
        lines.append([part, name, f"`{shown_text(text)}`", verdict, *accepted(case.text)])
    covered = sum(case.held == "reads" for case in cases)
    print(head(root) + f"{len(cases)} features, of which `read` covers {covered}.\n")
    print(table(["part", "feature", "text", "`read`", *(name for name, _, _ in ASSEMBLERS)], lines), end="")


if __name__ == "__main__":
    main(*sys.argv[1:])
