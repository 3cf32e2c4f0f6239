#!/usr/bin/env python3
"""Writes the examples of bindings/README.md in an unpacked release archive, for tools/embed/run.sh.

tools/embed/examples.py ARCHIVE FOLDER: writes these to the folder. tools/documents/blocks.py finds the blocks of the page.

- commands.sh: the block of commands that calls pkg-config;
- CMakeLists.txt: the block that starts with `find_package`;
- c, cpp: the files of the archive that have the blocks in C and C++, a path in each line;
- main.rs: the program in bindings/rust/README.md that has the block in Rust;
- python.txt: the block in Python.

Fails if one of these is missing, or if a block belongs to none of them. The other blocks of commands are left out: they need the repository.
"""

import pathlib
import sys

sys.dont_write_bytecode = True
sys.path.append(str(pathlib.Path(__file__).resolve().parents[1]))

from documents.blocks import SHELL, blocks, even, file_of, nearest  # noqa: E402
from documents.tree import Tree  # noqa: E402

PAGE = "bindings/README.md"
MADE = ("commands.sh", "CMakeLists.txt", "c", "cpp", "main.rs", "python.txt")
FOLDERS = {"bindings/c/": "c", "bindings/cpp/": "cpp"}
PAGES = {"bindings/rust/README.md": "main.rs", "bindings/python/README.md": "python.txt"}


def whole(tree, path, lines):
    """Returns the block of a page that contains a block of another page."""
    return next("\n".join(even(block)) for _, block in blocks(tree.lines(path)) if nearest(lines, block)[1] == len(lines))


def example(tree, number, lines):
    """Returns the file that a block is written to, or `None`, and the text that it adds to that file."""
    text = "\n".join(even(lines))
    if SHELL.match(text):
        return "commands.sh" if "pkg-config" in text else None, text
    if text.startswith("find_package("):
        return "CMakeLists.txt", text
    path = file_of(tree, PAGE, lines)
    for folder, name in FOLDERS.items():
        if path and path.startswith(folder):
            return name, path
    if path == "bindings/rust/README.md":
        return PAGES[path], whole(tree, path, lines)
    if path in PAGES:
        return PAGES[path], text
    sys.exit(f"embed: {PAGE}:{number}: no file of the archive has this block")


def main():
    tree, folder = Tree(pathlib.Path(sys.argv[1])), pathlib.Path(sys.argv[2])
    made = {name: [] for name in MADE}
    for number, lines in blocks(tree.lines(PAGE)):
        name, text = example(tree, number, lines)
        if name and text not in made[name]:
            made[name].append(text)
    for name, texts in made.items():
        if not texts:
            sys.exit(f"embed: {PAGE} has no block for {name}")
        (folder / name).write_text("\n".join(texts) + "\n", encoding="utf-8")


if __name__ == "__main__":
    main()
