"""The files of the repository."""

import fnmatch
import os
import pathlib
import re

from recipes import MADE, ROOT


class Missing(Exception):
    """What a check looks for and does not find."""


class Tree:
    """The files below a folder, by default of the repository: their paths, those of the folders, and their texts, of which some may be changed."""

    def __init__(self, root=ROOT):
        self.root, self.known, self.texts = root, set(), {}
        for folder, folders, names in os.walk(root):
            folders[:] = [name for name in folders if name not in MADE]
            self.known |= {pathlib.Path(folder, name).relative_to(root).as_posix() for name in (*folders, *names)}
        self.pages = sorted(path for path in self.known if path.endswith(".md"))
        self.crates = {path.split("/")[1] for path in self.known if re.fullmatch(r"crates/\w+", path)}
        self.tops = {path.split("/")[0] for path in self.known if "/" in path} | self.crates

    def text(self, path):
        """Returns the text of a file."""
        if path not in self.texts:
            if path not in self.known:
                raise Missing(f"{path}: does not exist, and tools/documents names it")
            self.texts[path] = (self.root / path).read_text(encoding="utf-8")
        return self.texts[path]

    def lines(self, path):
        """Returns the lines of a file."""
        return self.text(path).split("\n")

    def matching(self, pattern):
        """Returns the paths that match a pattern, in which `*` also stands for slashes."""
        return sorted(fnmatch.filter(self.known, pattern))

    def found(self, expression, pattern):
        """Returns the matches of an expression in the files whose paths match a pattern."""
        return [match for path in self.matching(pattern) for match in re.findall(expression, self.text(path), re.MULTILINE)]

    def first(self, expression, pattern):
        """Returns the first match of an expression in the files whose paths match a pattern."""
        found = self.found(expression, pattern)
        if not found:
            raise Missing(f"{pattern}: has nothing that matches {expression}, which tools/documents looks for")
        return found[0]

    def defined(self, name, pattern):
        """Returns the number that a file gives to a name, as `name = 50` or `NAME: u32 = 5_0`."""
        return int(self.first(rf"\b{name}\b[^=\n]*=\s*([\d_]+)", pattern).replace("_", ""))

    def section(self, page, heading):
        """Returns the text of a page from a heading to the next."""
        return self.first(rf"^#+ {re.escape(heading)}\n([^\0]*?)(?=^#|\Z)", page)
