"""Renames a module of a crate: its files, the folders of its proofs, and every path to it."""

import re

from rename.mentions import Mentions
from rename.mutants import renamed_mutant
from rename.repository import Refused, apply
from rename.rust import Modules, code_of, comments_of, path_of_file

GROUPS = re.compile(r"(?:(?:^#\[[^\n]*\]\n)*^(?:pub(?:\([^)\n]*\))? )?mod \w+;?\n)+", re.MULTILINE)
ENTRY = re.compile(r"(?:^#\[[^\n]*\]\n)*^(?:pub(?:\([^)\n]*\))? )?mod (\w+);?\n", re.MULTILINE)
NAME = re.compile(r"[a-z][a-z0-9_]*")
USE_LINE = re.compile(r" *(?:ghost )?use ")
ALIAS = re.compile(r"^ *(?:ghost )?use (Rattle[\w.+-]*?)(?: as (\w+))?;?$", re.MULTILINE)


def sorted_groups(text, old):
    """Returns a text with the lines `mod` sorted in each group that was sorted in the text before."""
    before = [[entry[1] for entry in ENTRY.finditer(group[0])] for group in GROUPS.finditer(old)]
    number = iter(range(len(before)))

    def group(match):
        names = before[next(number)]
        entries = [(entry[1], entry[0]) for entry in ENTRY.finditer(match[0])]
        return "".join(entry for _, entry in (sorted(entries) if names == sorted(names) else entries))

    return GROUPS.sub(group, text)


class ModuleRename:
    """A new name for the module `target`, a crate and names, with its changes of all files."""

    def __init__(self, repository, target, new):
        self.repository, self.target, self.new = repository, target, new
        self.modules = Modules(repository)
        self.check()
        self.mentions = Mentions(repository, self.modules, target, new)
        crate, dotted = target[0], r"\.".join(target[1:])
        starts = rf"\bRattle\.{crate}\.(?:proofs\.|specs\.(?:declared\.|contracts\.)?)?"
        self.ghost = re.compile(rf"{starts}{dotted}(?![\w-])")
        self.group = re.compile(rf"{starts}\{{([^{{}}]*)\}}")
        self.in_group = re.compile(rf"(?<=[{{ ]){dotted}(?=\.)")
        names = "::".join(target[1:])
        self.tactic = re.compile(rf"\b(?P<crate>crate|{crate})::(?:proofs|specs(?:::declared|::contracts)?)::{names}\b")
        self.word = re.compile(rf"\b{target[-1]}\b")

    def check(self):
        """Refuses a module that is no file, and a new name that is taken or that the kit would refuse."""
        crate, *names = self.target
        parent, new = self.target[:-1], self.new
        here = self.modules.by_path.get(self.target)
        shown = "::".join(names)
        if crate not in self.repository.crates:
            raise Refused(f"there is no crate {crate}")
        if not here or here.start or f"crates/{crate}/src/{'/'.join(names)}.rt" != here.file:
            raise Refused(f"{crate} has no file of a module {shown}")
        if not NAME.fullmatch(new):
            raise Refused(f"{new} is no name of a module")
        above = self.modules.by_path[parent]
        taken = [name for name in above.items - {names[-1]} if name.lower() == new] + [name for name in above.imports if name == new]
        if taken:
            raise Refused(f"{above.file} has the name {taken[0]} already, and names in a module may not differ in case only")
        if new in self.repository.crates or new in ("std", "core", "alloc", "crate", "self", "super"):
            raise Refused(f"{new} is the name of a crate")
        folder = "/".join([f"crates/{crate}/proofs", *names[:-1]])
        for path in [*self.repository.paths, *self.repository.folders]:
            start, _, name = path.rpartition("/")
            if start == folder and re.sub(r"\.antt$", "", name).lower() == new:
                raise Refused(f"{path} exists, and may not differ from the module {new} in case only")

    def importers(self):
        """Refuses a new name that is taken in a module that imports the old one."""
        for path, module in self.modules.by_path.items():
            names = module.imports.get(self.target[-1])
            if names and self.modules.denoted(path, names)[-1] == self.target and self.new in module.items | set(module.imports):
                raise Refused(f"{module.file} imports the module, and has the name {self.new} already")

    def by_alias(self, text):
        """Returns expressions for the paths that start with a name that a `use` of the text binds to the module or to one around it."""
        found = []
        for match in ALIAS.finditer(text):
            for kind in ("proofs", "specs.declared", "specs.contracts"):
                path = ".".join(["Rattle", self.target[0], kind, *self.target[1:]])
                if f"{path}.".startswith(f"{match[1]}.") and (path != match[1] or not match[2]):
                    name = match[2] or match[1].rpartition(".")[2]
                    found.append(re.compile(rf"(?<![\w./-]){name}{re.escape(path[len(match[1]) :])}(?=\.)"))
        return found

    def ghost_edits(self, text):
        """Returns the edits of paths in definitions and proofs, also in braces and by an alias."""
        ends = [match.end() for match in self.ghost.finditer(text)]
        for match in self.group.finditer(text):
            ends += [inner.end() for inner in self.in_group.finditer(text, match.start(1), match.end())]
        aliases, place = self.by_alias(text), 0
        for line in text.split("\n") if aliases else []:
            if not USE_LINE.match(line):
                ends += [place + match.end() for alias in aliases for match in alias.finditer(line.partition("--")[0])]
            place += len(line) + 1
        return [((end - len(self.target[-1]), end), self.new) for end in ends]

    def code_edits(self, path, text):
        """Returns the edits of a file of Rust code, with those of its comments."""
        name = self.target[-1]
        edits = [((place, place + len(name)), self.new) for place in self.modules.places(path, text, self.target)]
        own = path_of_file(path)[0] == self.target[0]
        for match in self.tactic.finditer(text):
            if own or match["crate"] != "crate":
                edits.append(((match.end() - len(name), match.end()), self.new))
        shown = list(re.sub(r"[^\n]", " ", text))
        for start, end in comments_of(text):
            shown[start:end] = text[start:end]
        edits += self.mentions.edits(path, "".join(shown))
        if path_of_file(path) == self.target[:-1]:
            edits += self.mentions.head_edits(text)
        return edits

    def edits(self, path, text):
        """Returns the edits of the text of a file, or of the text that a mutant makes of it."""
        if not self.word.search(text):
            return []
        if path.endswith(".rt"):
            return self.ghost_edits(text) + self.code_edits(path, text)
        return self.ghost_edits(text) + self.mentions.edits(path, text)

    def new_path(self, path):
        """Returns the path of a file after the renaming."""
        if path not in self.mentions.moved:
            return path
        parts = path.split("/")
        at = len(self.target) + 1
        parts[at] = self.new + parts[at][len(self.target[-1]) :]
        return "/".join(parts)

    def line_edits(self, path, line):
        """Returns the edits of a line of a mutant that names a clause, or says something in words."""
        return self.ghost_edits(line) + self.mentions.edits(path, line)

    def restore(self, files):
        """Reads the modules of files as they are, after copies of them were read."""
        for file in files:
            if path_of_file(file):
                self.modules.add(file, code_of(self.repository.text(file)))

    def run(self):
        """Makes all changes in the repository's copy in memory."""
        self.importers()
        for path in self.repository.names(""):
            text = self.repository.text(path)
            if not self.word.search(text):
                continue
            if path.endswith(".edit"):
                changed = renamed_mutant(self, path, text)
            else:
                changed = apply(text, self.edits(path, text))
            if path_of_file(path) == self.target[:-1]:
                changed = sorted_groups(changed, text)
            self.repository.change(path, changed)
        for path in self.mentions.moved:
            if path in self.repository.paths:
                self.repository.move(path, self.new_path(path))

    def left(self):
        """Returns the lines that may still mean the old name, for a look by hand."""
        found = []
        for path in self.repository.names(""):
            text = self.repository.current(path)
            if self.word.search(text):
                if path.endswith(".rt"):
                    text = apply(text, [(span, re.sub(r"[^\n]", " ", text[slice(*span)])) for span in self.code_spans(text)])
                elif path.endswith(".antt"):
                    text = re.sub(r"(?m)^(?!.*--).*$", "", text)
                found += self.mentions.left(path, text)
        return found

    def code_spans(self, text):
        """Returns the spans of code between comments."""
        edges = [0, *(place for span in comments_of(text) for place in span), len(text)]
        return list(zip(edges[::2], edges[1::2]))
