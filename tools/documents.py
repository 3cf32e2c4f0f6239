#!/usr/bin/env python3
"""Checks the documents against the repository: blocks of code and output, numbers, links and paths.

Blocks (tools/documents/blocks.py). Each block of the pages in `SOURCES` occurs in one of the files named there, line by line, up to a common
indentation. In a file of rows the texts count, which are after `|`. Two texts side by side count as two blocks. `use` lines before code of Rattle
may be put together in the file, and attributes are left out of code. Each line of a block of commands is in `COMMANDS`, with the reason why no test
compares its output, or is `printf '..' >FILE` with the bytes of the row that the page shows. Each message in README's table of messages is typed
in a test, where `..` stands for any text. Each example in a documentation comment of crates/wasmprinter/src is in `DOC_EXAMPLES`, line by line.

Numbers (tools/documents/numbers.py). Each number that a pattern of `numbers` finds in a page equals the number computed from the repository. Each
pattern finds at least one. Numbers of measurements are not checked, nor numbers in the pages of `HISTORY`.

Links and paths (tools/documents/links.py). Each relative link of each page leads to a file, and its anchor to a heading. Each path in backquotes
or in a block exists: from the top, from `crates` or from the page's folder, or in backquotes as the end of a path. The suffix may be missing. A
path with NAME is an example. `GONE` lists paths of files that are not in the repository, with reasons.

Prints a line for each fault: the page, the line and what differs. The status is 1 if there is one.
tools/documents.py --self-test: makes a mistake in each block, number and source and in a link and a path of each page, in copies in memory, and
checks that each mistake is reported.
"""

import pathlib
import re
import sys

sys.dont_write_bytecode = True
sys.path.append(str(pathlib.Path(__file__).resolve().parent / "definitions"))

from documents.blocks import DOC_EXAMPLES, SOURCES, block_faults, blocks, comment_blocks, example_faults, message_faults  # noqa: E402
from documents.links import link_faults, path_faults  # noqa: E402
from documents.numbers import matches, number_faults, numbers, value_of  # noqa: E402
from documents.tree import Missing, Tree  # noqa: E402

# Mistakes in links, in anchors and in paths: expressions, what is put in their places, and the check that finds the mistake
WRONG_LINKS = ((r"\]\((?!\w+:)", "](x", link_faults), (r"(?<=\.md#)", "x", link_faults), (r"(?<=`)(?=crates/|tools/|docs/)(?!crates/\w+/out)", "x", path_faults))


def check(tree):
    """Returns the faults of the documents, and how much was checked."""
    found, summary = [], []
    checks = (("blocks", block_faults, SOURCES), ("examples", example_faults, tree.matching("crates/wasmprinter/src/*.rt")), ("messages", message_faults, ["README.md"]))
    checks = (*checks, ("links", link_faults, tree.pages))
    for what, faults_of, pages in (*checks, ("paths", path_faults, tree.pages), ("numbers", number_faults, [None])):
        checked = 0
        for page in pages:
            try:
                faults, count = faults_of(tree, page)
            except Missing as reason:
                faults, count = [str(reason)], 0
            found += faults
            checked += count
        summary.append(f"{checked} {what}")
    return found, ", ".join(summary)


def mistakes(tree):
    """Returns mistakes: a file, its text with the mistake, the check that finds it, and what is passed to the check."""
    made = []
    for page, sources in SOURCES.items():
        made += [(path, tree.text(path).translate(str.maketrans("(:=", "[;~")), block_faults, page) for path in sources]
        for number, lines in blocks(tree.lines(page)):
            changes = [(number - 1 + len(lines) // 2, r"(?=\S)", "x")]
            changes += [(at, r"(?<=\\0)asm", "bsm") for at in range(number - 1, number - 1 + len(lines))]
            for at, old, new in changes:
                wrong = re.sub(old, new, tree.lines(page)[at], count=1)
                made.append((page, "\n".join([*tree.lines(page)[:at], wrong, *tree.lines(page)[at + 1 :]]), block_faults, page))
    for path in tree.matching("crates/wasmprinter/src/*.rt"):
        made += [(DOC_EXAMPLES, tree.text(DOC_EXAMPLES).replace(lines[-1].strip(), "x"), example_faults, path) for _, lines in comment_blocks(tree.lines(path))]
    for row in numbers(tree):
        for page, match in matches(tree, row[0]):
            start, end = match.span("number")
            wrong = tree.text(page)[:start] + str(value_of(match["number"]) + 1) + tree.text(page)[end:]
            made.append((page, wrong, number_faults, [row]))
    for page in tree.pages:
        made += [(page, re.sub(old, new, tree.text(page)), faults_of, page) for old, new, faults_of in WRONG_LINKS]
    return [mistake for mistake in made if mistake[1] != tree.text(mistake[0])]


def self_test(tree):
    """Makes each mistake, and returns those that no check finds."""
    made = mistakes(tree)
    missed = []
    for path, text, faults_of, checked in made:
        right, tree.texts[path] = tree.text(path), text
        if not faults_of(tree, checked)[0]:
            missed.append(f"a mistake in {path} is not reported: " + next(line for line in text.split("\n") if line not in right.split("\n")))
        tree.texts[path] = right
    return missed, f"{len(made)} mistakes made"


def main():
    tree = Tree()
    found, summary = check(tree)
    if not found and sys.argv[1:] == ["--self-test"]:
        found, summary = self_test(tree)
    for fault in found:
        print(f"documents: {fault}")
    print(f"documents: {summary}; {len(found)} faults")
    return 1 if found else 0


if __name__ == "__main__":
    sys.exit(main())
