"""count.py: counts the definitions that have to be believed, by the files that a file cites, and prints the table of docs/DEFINITIONS.md.

A definition is an `abbrev`, an `unfoldable`, a `record` or a `data` with all its lines; comments, empty lines and imports are not counted.
Everything else in these files is a lemma, which the prover accepted and which needs no belief.
"""

import os
import re

CRATES = os.path.join(os.path.dirname(os.path.abspath(__file__)), "..", "..", "crates")
SPEC = "wasmprinter_spec"
# What is stated, and the files that state it: a crate and a file of its folder `specs`.
ROOTS = (
    ("which module bytes encode (`Binary`, `Module`)", ((SPEC, "Binary"), (SPEC, "Module"))),
    ("what a text means (`Read`)", ((SPEC, "Read"),)),
    ("both of these", ((SPEC, "Binary"), (SPEC, "Module"), (SPEC, "Read"))),
    ("what is printed (`Layout`)", ((SPEC, "Layout"),)),
    ("the main theorem (`Printed`), with all of these", (("wasmprinter", "Printed"),)),
)
IMPORT = re.compile(r"^use Rattle\.(\w+)\.specs\.([\w.]+?)\.\{", re.MULTILINE)
LEMMA = re.compile(r"(pub )?[^\s:=(]+ :( |$)")
COUNTS = ("definitions", "definition lines", "lemmas", "lemma lines")
KEYWORDS = ("abbrev ", "unfoldable ", "pub record ", "record ", "pub data ", "data ", "syntax ", "pub syntax ")


def path_of(name):
    """Returns the path of a file of definitions."""
    return os.path.join(CRATES, name[0], "specs", *name[1].split(".")) + ".antt"


def read(name):
    with open(path_of(name), encoding="utf-8") as file:
        return file.read()


def cited(roots):
    """Returns the files that these files cite, and those that they cite, and so on, with these."""
    found, waiting = set(), list(roots)
    while waiting:
        name = waiting.pop()
        if name not in found and os.path.exists(path_of(name)):
            found.add(name)
            waiting += IMPORT.findall(read(name))
    return found


def code_lines(text):
    """Returns the lines of a file without comments, empty lines and imports."""
    lines = [line.split(" -- ")[0].rstrip() for line in text.splitlines()]
    return [line for line in lines if line and not line.lstrip().startswith("--") and not line.startswith(("use ", "pub use ", "pub mod ", "mod "))]


def counted(lines):
    """Counts the definitions, their lines, the lemmas and their lines. The parameters that a line `module` declares count as lines of a definition."""
    counts = dict.fromkeys(COUNTS, 0)
    kind, indent = "definition", 0
    for line in lines:
        text = line.strip()
        depth = len(line) - len(line.lstrip())
        indent = indent if depth else 0
        if text.startswith("module "):
            indent, kind = depth + 2, "definition"
        elif depth == indent and (text.startswith(KEYWORDS) or LEMMA.match(text)):
            kind = "definition" if text.startswith(KEYWORDS) else "lemma"
            counts[f"{kind}s"] += 1
        counts[f"{kind} lines"] += 1
    return counts


def main():
    print("| what | files | definitions | their lines | lemmas | their lines |\n|---|---|---|---|---|---|")
    for what, roots in ROOTS:
        files = cited(roots)
        sums = [sum(counted(code_lines(read(name)))[key] for name in files) for key in COUNTS]
        print(f"| {what} | {len(files)} | " + " | ".join(f"{it:,}" for it in sums) + " |")


if __name__ == "__main__":
    main()
