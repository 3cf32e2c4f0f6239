"""The relative links of the documents, and the paths in them."""

import fnmatch
import os
import re

from documents.blocks import blocks
from recipes import MADE

RENAMED = ("tools/refusals.sh", "bindings/rows.txt")

# Paths of files that are not in the repository, by page, with reasons
GONE = {
    "CHANGELOG.md": {name: "the name before or after a change that the page lists" for name in RENAMED},
    "bindings/README.md": {
        "UNSAFE.md": "a guide of the toolchain",
        **{name: "a file of a release archive" for name in ("BUILD.txt", "bindings/python/*.whl")},
    },
    "docs/GUARANTEES.md": {name: "a guide of the toolchain" for name in ("START-HERE.md", "LANGUAGE.md", "ERROR_HANDLING.md")},
}
PATH = re.compile(r"[\w.@+*-][\w.@+*{}, /-]*")
FILE = re.compile(r"\w\.(?:rt|antt|edit|txt|md|sh|py|c|h|cpp|rs|toml|wat)$")
PLACEHOLDER = re.compile(r"\bNAME\b|/[Xx]\b|\.\.|^FILE|^PATH|^FOLDER")


def without_code(lines):
    """Returns the lines of a page, with those of blocks left empty."""
    bare = list(lines)
    for number, block in blocks(lines, with_recipes=True):
        bare[number - 1 : number - 1 + len(block)] = [""] * len(block)
    return bare


def anchors(tree, page):
    """Returns the anchors of the headings of a page."""
    found = set()
    for line in without_code(tree.lines(page)):
        if heading := re.match(r"#+ (.*)", line):
            slug = re.sub(r"[^\w\- ]", "", heading.group(1).strip().lower()).replace(" ", "-")
            found.add(next(name for name in (slug, *(f"{slug}-{n}" for n in range(1, 99))) if name not in found))
    return found


def link_faults(tree, page):
    """Returns the relative links of a page that lead nowhere, and the number of its links."""
    found, checked = [], 0
    for number, line in enumerate(without_code(tree.lines(page)), 1):
        for link in re.findall(r"\]\(([^()\s]+)\)", re.sub(r"`[^`]*`", "``", line)):
            if re.match(r"\w+:", link):
                continue
            checked += 1
            path, _, anchor = link.partition("#")
            target = os.path.normpath(os.path.join(os.path.dirname(page), path)) if path else page
            if target not in tree.known:
                found.append(f"{page}:{number}: the link leads to no file: {link}")
            elif anchor and anchor not in anchors(tree, target):
                found.append(f"{page}:{number}: no heading of {target} has the anchor of the link: {link}")
    return found, checked


def expanded(path):
    """Returns the paths that a path with alternatives in braces means."""
    part = re.search(r"\{([^{}]*)\}", path)
    if not part:
        return [path]
    return [longer for name in part.group(1).split(",") for longer in expanded(path[: part.start()] + name.strip() + path[part.end() :])]


def exists(tree, page, path, in_block):
    """Reports whether there is a file or a folder with a path, or, outside of blocks, one whose path ends with it."""
    starts = ["", "crates/", os.path.dirname(page) + "/"]
    if not in_block and path.split("/")[0] not in tree.tops:
        starts.append("*/")
    names = [start + path + suffix for start in starts for suffix in ("", ".rt", ".antt")]
    return any(fnmatch.filter(tree.known, name) if "*" in name else name in tree.known for name in names)


def paths(tree, line, in_block):
    """Returns the paths in a line: in backquotes paths and names of files, in a block only paths that start at the top or at a crate."""
    for span in [line] if in_block else re.findall(r"`([^`]+)`", line):
        for word in re.findall(r"(?:\{[^{}]*\}|[^\s{}])+", span):
            path = word.rstrip("/.,:;")
            is_below = "/" in path and path.split("/")[0] in tree.tops
            if PATH.fullmatch(path) and not PLACEHOLDER.search(path) and (is_below or not in_block and ("/" in path or FILE.search(path))):
                yield from (name for name in expanded(path) if not set(name.split("/")) & MADE)


def path_faults(tree, page):
    """Returns the paths of a page that don't exist, and the number of its paths."""
    found, checked = [], 0
    for number, (line, prose) in enumerate(zip(tree.lines(page), without_code(tree.lines(page))), 1):
        for path in paths(tree, line, line != prose):
            checked += 1
            if path not in GONE.get(page, {}) and not exists(tree, page, path, line != prose):
                found.append(f"{page}:{number}: does not exist: {path}")
    return found, checked
