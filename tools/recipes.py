#!/usr/bin/env python3
"""Checks the lists of files in the recipes of CONTRIBUTING.md and docs/ARCHITECTURE.md against the repository.

A recipe says which files a change touches, such as a new kind of section. Its lists are those of an example that is there already, such as data
segments: each file that names the example. A list is a block that starts with three backticks and `recipe`:

    names FenceShape | Shape::Fence
    crates/wasmprinter_spec/specs:
      Row Shapes             the shape, and which immediates have it
      Layout/Operators

A line `names` has regular expressions with ` | ` between them, and starts a new example. A block without this line continues the last example. A
line that ends with a colon names a folder. Each line after it, indented, has names of files in the folder, and after at least 2 spaces a remark. A name without a
dot gets the suffix of its folder: `.rt` in `src`, `.antt` in `specs` and `proofs`. A name with `*` means all files that it matches and that
name the example. It must not match code, definitions or proofs of the library or of the programs: these are listed one by one.

A file names an example if its path or a line of its text matches one of the expressions. The pages with recipes are left out. The status is 1 if

- a file names an example and is not in the example's lists;
- a listed file does not exist, does not name the example, or is listed twice;
- a name with `*` matches no file that names the example, or a file that must be listed alone;
- a line can't be read, or there are no recipes.
"""

import fnmatch
import os
import pathlib
import re
import sys

ROOT = pathlib.Path(__file__).resolve().parent.parent

PAGES = ("CONTRIBUTING.md", "docs/ARCHITECTURE.md")

# Folders that are made by tools
MADE = {".git", "out", "target", "__pycache__"}

# Code, definitions and proofs of the library and of the programs
LISTED_ALONE = re.compile(r"crates/(wasmprinter(?!_samples/|_expecting/)\w*|printwasm|wasm2text)/(src|specs|proofs)/")

SUFFIXES = {"src": ".rt", "specs": ".antt", "proofs": ".antt"}

FENCE = "```"


class Example:
    """An example of a recipe: where it is named first, its expressions, and the listed files with the lines that have them."""

    def __init__(self, where, heading, expressions):
        self.where = where
        self.heading = heading
        self.expressions = [re.compile(expression, re.MULTILINE) for expression in expressions.split(" | ")]
        self.listed = []

    def is_named(self, path, text):
        """Reports whether the path or the text names the example."""
        return any(expression.search(path) or expression.search(text) for expression in self.expressions)


class BadLine(Exception):
    """The reason why a line of a recipe can't be read."""


def files():
    """Returns the paths and texts of the repository's files, without the pages of recipes, what tools make, and files that are not UTF-8."""
    texts = {}
    for folder, folders, names in os.walk(ROOT):
        folders[:] = [name for name in folders if name not in MADE]
        for name in names:
            path = pathlib.Path(folder, name)
            relative = path.relative_to(ROOT).as_posix()
            try:
                if relative not in PAGES:
                    texts[relative] = path.read_text(encoding="utf-8")
            except UnicodeDecodeError:
                continue
    return texts


def path_of(folder, name):
    """Returns the path of a name in a folder, with the suffix of the folder if the name has none."""
    path = name if folder == "." else f"{folder}/{name}"
    if "." in name.rsplit("/", 1)[-1]:
        return path
    for part in folder.split("/"):
        if part in SUFFIXES:
            return path + SUFFIXES[part]
    return path


def blocks(page):
    """Returns the blocks of recipes in a page: the heading before each, and its lines with their numbers."""
    heading, block, found = "", None, []
    for number, line in enumerate((ROOT / page).read_text(encoding="utf-8").split("\n"), 1):
        text = line.strip()
        if block is not None and text == FENCE:
            block = None
        elif block is not None:
            block.append((number, line))
        elif text == FENCE + "recipe":
            block = []
            found.append((heading, len(line) - len(line.lstrip()), block))
        elif line.startswith("#"):
            heading = text.lstrip("# ")
    return found


def read_line(example, folder, where, line):
    """Reads a line of a block after `names`, and returns the folder of the lines after it."""
    if not line.strip():
        return folder
    if not line.startswith(" "):
        if not line.endswith(":"):
            raise BadLine("neither `names`, nor a folder, nor names of files")
        return line[:-1]
    if folder is None:
        raise BadLine("names of files before a folder")
    for name in line.strip().split("  ")[0].split(" "):
        example.listed.append((where, path_of(folder, name)))
    return folder


def examples(page):
    """Returns the examples of a page."""
    found, heading_of_last = [], None
    for heading, indent, lines in blocks(page):
        folder = None
        if heading != heading_of_last and lines and not lines[0][1].strip().startswith("names "):
            raise BadLine(f"{page}:{lines[0][0]}: the first list of a recipe has no line `names`")
        heading_of_last = heading
        for number, line in lines:
            where = f"{page}:{number}"
            try:
                if line.strip().startswith("names "):
                    found.append(Example(where, heading, line.strip()[len("names ") :]))
                    folder = None
                else:
                    folder = read_line(found[-1], folder, where, line[indent:])
            except (BadLine, re.error) as reason:
                raise BadLine(f"{where}: {reason}") from reason
    return found


def faults(example, texts):
    """Returns the differences between the lists of an example and the files that name it."""
    naming = {path for path, text in texts.items() if example.is_named(path, text)}
    found, seen, missing = [], set(), set(naming)
    for where, name in example.listed:
        if name in seen:
            found.append(f"{where}: listed twice: {name}")
        seen.add(name)
        matched = set(fnmatch.filter(naming, name)) if "*" in name else {name} & naming
        missing -= matched
        if not matched:
            found.append(f"{where}: {'does not name the example' if name in texts or '*' in name else 'does not exist'}: {name}")
        if "*" in name:
            found += [f"{where}: must be listed alone, without `*`: {path}" for path in sorted(matched) if LISTED_ALONE.match(path)]
    return found + [f"{example.where}: names the example and is not listed: {path}" for path in sorted(missing)]


def main():
    texts = files()
    bad = count = listed = 0
    for page in PAGES:
        try:
            found = examples(page)
        except BadLine as reason:
            print(f"recipes: {reason}")
            bad += 1
            continue
        for example in found:
            count += 1
            listed += len(example.listed)
            differences = faults(example, texts)
            bad += len(differences)
            for difference in differences:
                print(f"recipes: {difference} ({example.heading})")
    print(f"recipes: {count} lists with {listed} names of files, {bad} faults")
    sys.exit(1 if bad or not count else 0)


if __name__ == "__main__":
    main()
