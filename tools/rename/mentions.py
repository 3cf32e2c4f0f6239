"""The places of a module outside of code: paths of files, paths of items, recipes and names in comments and documents."""

import re

from recipes import FENCE, PAGES, path_of
from rename.rust import code_of

FILE = re.compile(r"(?<![\w/.+-])(?:\.{1,2}/)*((?:[\w+.-]+/)*[\w+.-]*\w)")
ITEM = re.compile(r"(?<![\w.:])[A-Za-z_]\w*(?:::[A-Za-z_]\w*)+")
SPAN = re.compile(r"`([^`\n]+)`")


def without_suffix(path):
    """Returns a path without the suffix of code, definitions or proofs."""
    return re.sub(r"\.(?:rt|antt)$", "", path)


def ends_with(path, tail):
    """Reports whether a path ends with another, with or without its suffix."""
    return any(("/" + whole).endswith("/" + tail) for whole in (path, without_suffix(path)))


def blank(match):
    """Returns as many spaces as a match has characters."""
    return " " * len(match[0])


class Mentions:
    """Finds the mentions of a module with a new name, before its files are moved."""

    def __init__(self, repository, modules, target, new):
        self.repository, self.modules, self.target, self.new = repository, modules, target, new
        self.old = target[-1]
        word = re.compile(rf"(?<![\w-]){self.old}(?![\w-])")
        known = repository.paths | repository.folders
        self.named = [path for path in known if word.search(path)]
        kinds = [f"crates/{target[0]}/{kind}/{'/'.join(target[1:])}" for kind in ("src", "proofs", "specs")]
        self.moved = [path for path in self.named if any(path.startswith(kind + "/") or without_suffix(path) == kind for kind in kinds)]
        self.is_only_module = self.names_only_the_module()

    def names_only_the_module(self):
        """Reports whether the old name occurs in code only as this module, so that each mention of it means the module."""
        word = re.compile(rf"\b{self.old}\b")
        for path in self.repository.names(r"\.(?:rt|antt)$"):
            text = self.repository.text(path)
            if not word.search(text):
                continue
            places = set() if path.endswith(".antt") else self.modules.places(path, text, self.target)
            code = re.sub(r"--.*", blank, text) if path.endswith(".antt") else code_of(text)
            found = {match.start() for match in word.finditer(re.sub(r"Rattle[\w.+-]*", blank, code))} - places
            if found:
                return False
        others = [path for path in self.named if path not in self.moved]
        return not others and not [path for path in self.modules.by_path if self.old in path[1:] and path[: len(self.target)] != self.target]

    def file_edits(self, path, text):
        """Returns the edits of paths of files, where a path means a moved file or folder and no other."""
        edits = []
        for match in FILE.finditer(text):
            parts = match[1].split("/")
            if self.old not in map(without_suffix, parts) or "/" not in match[1] and "." not in match[1]:
                continue
            for moved in self.moved:
                at = self.place_in(moved, match[1])
                if at is not None and not self.other_files(path, match[1]):
                    start = match.start(1) + sum(len(part) + 1 for part in parts[:at])
                    edits.append(((start, start + len(self.old)), self.new))
                    break
        return edits

    def place_in(self, moved, tail):
        """Returns which part of a path `tail` is the renamed module in a moved path that ends with it, or `None`."""
        if not ends_with(moved, tail):
            return None
        place = len(self.target) + 1 - (len(moved.split("/")) - len(tail.split("/")))
        return place if place >= 0 else None

    def other_files(self, path, tail):
        """Returns the files and folders that a path may also mean: in a file of the crate only those of the crate."""
        crate = f"crates/{self.target[0]}/"
        found = [other for other in self.named if other not in self.moved and ends_with(other, tail)]
        return [other for other in found if other.startswith(crate) or not path.startswith(crate)]

    def item_edits(self, text, is_own_crate):
        """Returns the edits of paths with `::`, from the crate on or from a module on, where they mean no other module."""
        edits = []
        for match in ITEM.finditer(text):
            names = match[0].split("::")
            known = [self.target[0], *names[1:]] if names[0] == "crate" and is_own_crate else names
            for at, name in enumerate(names):
                if name == self.old and self.is_meant(known, at):
                    start = match.start() + sum(len(before) + 2 for before in names[:at])
                    edits.append(((start, start + len(name)), self.new))
        return edits

    def is_meant(self, names, at):
        """Reports whether the name with a number in a path means the module."""
        tail = tuple(names[: at + 1])
        if len(tail) > len(self.target) or self.target[-len(tail) :] != tail:
            return False
        if len(tail) == len(self.target):
            return True
        if at + 1 == len(names):
            return len(tail) > 1 and not self.others(tail)
        return self.declares(self.target, names[at + 1]) and not any(self.declares(other, names[at + 1]) for other in self.others(tail))

    def others(self, tail):
        """Returns the other modules whose paths end in the same way."""
        return [path for path in self.modules.by_path if path != self.target and path[-len(tail) :] == tail]

    def declares(self, path, name):
        """Reports whether a module declares or imports a name."""
        module = self.modules.by_path[path]
        return name in module.items or name in module.imports

    def recipe_edits(self, path, text):
        """Returns the edits of names in the lists of a recipe, below a line with their folder."""
        edits, folder, inside, place = [], None, False, 0
        for line in text.split("\n") if path in PAGES else []:
            bare = line.strip()
            if bare.startswith(FENCE):
                inside, folder = bare == FENCE + "recipe", None
            elif inside and bare.endswith(":") and "  " not in bare and " " not in bare:
                folder = bare[:-1]
            elif inside and folder and not bare.startswith("names "):
                edits += self.listed(folder, line, place)
            place += len(line) + 1
        return edits

    def listed(self, folder, line, place):
        """Returns the edits of a line of a recipe. Remarks keep their column."""
        edits, at, change = [], len(line) - len(line.lstrip()), 0
        for name in line.strip().split("  ")[0].split(" "):
            whole = path_of(folder, name)
            start = sum(len(part) + 1 for part in whole.split("/")[: len(self.target) + 1]) - len(f"{folder}/")
            if whole in self.moved and start >= 0:
                edits.append(((place + at + start, place + at + start + len(self.old)), self.new))
                change += len(self.new) - len(self.old)
            at += len(name) + 1
        at -= 1
        blanks = len(line[at:]) - len(line[at:].lstrip())
        if edits and blanks > 2 and line[at:].strip():
            edits.append(((place + at, place + at + blanks), " " * max(2, blanks - change)))
        return edits

    def word_edits(self, text, spans_only):
        """Returns the edits of the name alone, if it means nothing but the module: with `_` everywhere, otherwise in backquotes."""
        word = re.compile(rf"(?<![\w/.:-]){self.old}(?![\w/:(-]|\.\w)")
        if not self.is_only_module:
            return []
        if "_" in self.old and not spans_only:
            return [(match.span(), self.new) for match in word.finditer(text)]
        return [(match.span(1), self.new) for match in SPAN.finditer(text) if match[1] == self.old]

    def head_edits(self, text):
        """Returns the edits of the name in backquotes in the head of the parent's file, `//! - `NAME`: ..`."""
        return [(match.span(1), self.new) for match in re.finditer(rf"^//! - `({self.old})`", text, re.MULTILINE)]

    def edits(self, path, text):
        """Returns the edits of a text that is no code: a document, or comments with all other characters as spaces."""
        is_own_crate = path.startswith(f"crates/{self.target[0]}/")
        found = self.file_edits(path, text) + self.item_edits(text, is_own_crate) + self.recipe_edits(path, text)
        return found + self.word_edits(text, spans_only=path.endswith((".rt", ".antt", ".edit")) and not is_own_crate)

    def left(self, path, text):
        """Returns the lines of a text in which the old name may still mean the module."""
        name = self.old
        paths = rf"\b{name}\.(?:rt|antt)\b|(?<![$}}])(?<=\w/){name}\b|(?<![${{])\b{name}/\w|\b{name}::|::{name}\b"
        doubtful = re.compile(rf"`{name}`|{paths}|\bmod(?:ule)? `?{name}\b|\{{{name},[^}}]|[\w{{],{name}[,}}]")
        found = []
        for number, line in enumerate(text.split("\n"), 1):
            if (match := doubtful.search(line)) and not re.match(r"(?:file|old|new): ", line):
                start = max(0, match.start() - 60)
                found.append(f"{path}:{number}: {line[start : match.end() + 60].strip()}")
        return found
