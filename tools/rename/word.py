"""Renames a word, such as a function, a type, a field, a clause or a definition, in code, definitions, proofs, mutants and documents."""

import re

from rename.module import sorted_groups
from rename.mutants import renamed_mutant
from rename.repository import Refused, apply
from rename.rust import IMPL, NOT_CODE, Modules, code_of, path_of_file

WORD = re.compile(r"[A-Za-z_]\w*")
GHOST_NOT_CODE = re.compile(r"(?P<comment>--[^\n]*)|(?P<string>\"(?:\\.|[^\"\\\n])*\")")
SPAN = re.compile(r"`[^`\n]+`|\[[\w:]+\](?!\()")
FENCED = re.compile(r"^ *```[^\0]*?^ *```|^    \S[^\n]*$", re.MULTILINE)
IMPORT = re.compile(r"\buse (?:Rattle\.)?(\w+)[\w.+-]*\.\{([^}]*)\}")
DOCUMENTS = re.compile(r"\.md$|^tools/.*\.(?:py|sh)$")


class WordRename:
    """A new name for a word, in these crates or in all, with its changes of all files."""

    def __init__(self, repository, old, new, crates):
        self.repository, self.old, self.new = repository, old, new
        unknown = sorted(set(crates) - repository.crates)
        if unknown:
            raise Refused(f"there is no crate {unknown[0]}")
        if not WORD.fullmatch(old) or not WORD.fullmatch(new) or old == new:
            raise Refused("a word consists of letters, digits and `_`, and the new one differs")
        self.crates = set(crates) or repository.crates
        self.modules = Modules(repository)
        self.files = repository.names(r"\.(?:rt|antt|edit)$", self.crates)
        self.names = {old: new} | self.of_impls()
        self.word = re.compile(rf"(?<!\w)(?:{'|'.join(sorted(self.names, key=len, reverse=True))})(?!\w)")
        self.is_distinct = "_" in old or bool(re.search(r"[a-z][A-Z]|\d", old))
        self.check()
        self.check_users()

    def of_impls(self):
        """Returns the names of implementations, TYPETRAIT, that change with the name of a type or of a trait."""
        names = {}
        for path in self.files:
            for trait, kind in IMPL.findall(code_of(self.repository.text(path))) if path.endswith(".rt") else []:
                if self.old in (trait, kind):
                    names[kind + trait] = "".join(self.new if name == self.old else name for name in (kind, trait))
        return names

    def check(self):
        """Refuses a word that is a module or the kit's, and a new one that occurs in the code."""
        for path in self.modules.by_path:
            if path[0] in self.crates and self.old in path[1:]:
                raise Refused(f"{'::'.join(path)} is a module: rename it by `module`, or name only crates without it")
        used = re.compile(rf"\b{self.new}\b")
        occurs = False
        for path in self.files:
            code = self.code(path)
            occurs |= bool(self.word.search(code))
            if not path.endswith(".edit") and used.search(code):
                raise Refused(f"{path} has the word {self.new} already")
            for crate, words in IMPORT.findall(code):
                if crate not in self.repository.crates and self.old in re.split(r"[,\s]+", words):
                    raise Refused(f"{path} imports {self.old} from {crate}, which is not of this repository")
        if not occurs:
            raise Refused(f"no code has the word {self.old}")
        for path, module in self.modules.by_path.items():
            taken = [name for name in module.items if name.lower() == self.new.lower()]
            if path[0] in self.crates and self.old in module.items and taken and taken != [self.old]:
                raise Refused(f"{module.file} declares {taken[0]}, and names in a module may not differ in case only")

    def check_users(self):
        """Refuses to leave out a crate that uses the word of one of these crates, or of a crate that must be added in turn."""
        lines = {}
        for path in self.repository.names(r"\.(?:rt|antt)$", self.repository.crates - self.crates):
            if self.word.search(self.repository.text(path)):
                found = [part for part in re.split(r";|\n(?!\s+\S*[,}])", self.code(path)) if self.word.search(part)]
                lines.setdefault(path.split("/")[1], []).extend(found)
        needed = set(self.crates)
        while True:
            named = re.compile(rf"\b(?:{'|'.join(sorted(needed))})(?:::|\.)")
            more = {crate for crate, parts in lines.items() if crate not in needed and any(named.search(part) for part in parts)}
            if not more:
                break
            needed |= more
        if needed != self.crates:
            raise Refused(f"these crates use {self.old} too, name them as well: {' '.join(sorted(needed - self.crates))}")

    def spans(self, path, text):
        """Returns the spans of comments and of strings in a file of code."""
        matches = list((NOT_CODE if path.endswith(".rt") else GHOST_NOT_CODE).finditer(text)) if not path.endswith(".edit") else []
        return [match.span() for match in matches if match["comment"]], [match.span() for match in matches if match["string"]]

    def code(self, path):
        """Returns the text of a file without comments and strings, with its places kept."""
        text = self.repository.text(path)
        comments, strings = self.spans(path, text)
        return apply(text, [(span, re.sub(r"[^\n]", " ", text[slice(*span)])) for span in comments + strings])

    def foreign(self, text):
        """Returns the names with hyphens that a file imports from the kit's crates: they stay as they are."""
        lists = [words for crate, words in IMPORT.findall(text) if crate not in self.repository.crates]
        return {name for words in lists for name in re.split(r"[,\s]+", words) if "-" in name}

    def edits(self, path, text):
        """Returns the edits of the text of a file of code, or of the text that a mutant makes of it."""
        comments, strings = self.spans(path, text)
        foreign = self.foreign(text) if path.endswith(".antt") else set()
        edits = []
        for match in self.word.finditer(text):
            inside = [span for span in comments + strings if span[0] <= match.start() < span[1]]
            if inside and (inside[0] in strings or not self.is_name(text, inside[0], match)):
                continue
            name = text[self.edge(text, match.start(), -1) : self.edge(text, match.end(), 1)]
            if name not in foreign:
                edits.append((match.span(), self.names[match[0]]))
        return edits

    def edge(self, text, place, step):
        """Returns the end of a name with hyphens, from a place on in a direction."""
        while 0 <= (at := place if step > 0 else place - 1) < len(text) and (text[at].isalnum() or text[at] in "_-"):
            place += step
        return place

    def is_name(self, text, span, match):
        """Reports whether a word in prose means the name: each one that is no English word, and each in backquotes or in a link."""
        return self.is_distinct or any(quoted.start() <= match.start() < quoted.end() for quoted in SPAN.finditer(text, *span))

    def line_edits(self, path, line):
        """Returns the edits of a line of a mutant that names a clause."""
        return [(match.span(), self.names[match[0]]) for match in self.word.finditer(line) if line.startswith("clause:")]

    def restore(self, files):
        """Does nothing: no modules were read again."""

    def new_path(self, path):
        """Returns the path of a file of proofs or definitions after the renaming: a folder or file with the name of the word changes."""
        if not re.match(r"crates/\w+/(?:proofs|specs)/", path) or path.split("/")[1] not in self.crates:
            return path
        head, parts = path.split("/")[:3], path.split("/")[3:]
        return "/".join([*head, *(re.sub(r"^\+?\w+(?=\.antt$|$)", lambda match: self.renamed(match[0]), part) for part in parts)])

    def renamed(self, name):
        """Returns a new name for a part of a path, with its `+`."""
        bare = name.lstrip("+")
        return name[: len(name) - len(bare)] + self.names.get(bare, bare)

    def document_edits(self, path, text):
        """Returns the edits of a document: of a word that may be an English one only those in backquotes and in blocks."""
        spans = [match.span() for pattern in (SPAN, FENCED) for match in pattern.finditer(text)] if path.endswith(".md") else []
        found = list(self.word.finditer(text))
        return [(m.span(), self.names[m[0]]) for m in found if self.is_distinct or any(start <= m.start() < end for start, end in spans)]

    def run(self):
        """Makes all changes in the repository's copy in memory."""
        for path in self.files:
            text = self.repository.text(path)
            if path.endswith(".edit"):
                changed = renamed_mutant(self, path, text) if self.word.search(text) else text
            else:
                changed = sorted_groups(apply(text, self.edits(path, text)), text)
            self.repository.change(path, changed)
            if self.new_path(path) != path:
                self.repository.move(path, self.new_path(path))
        others = self.repository.names(r"\.(?:rt|antt)$", self.repository.crates - self.crates)
        if not any(self.word.search(self.code(path)) for path in others):
            for path in self.repository.names(DOCUMENTS.pattern):
                text = self.repository.text(path)
                self.repository.change(path, apply(text, self.document_edits(path, text)))

    def left(self):
        """Returns the lines that still have the word, for a look by hand."""
        found = []
        for path in sorted({*self.files, *self.repository.names(DOCUMENTS.pattern)}):
            lines = enumerate(self.repository.current(path).split("\n"), 1)
            found += [f"{path}:{number}: {line.strip()[:140]}" for number, line in lines if self.word.search(line)]
        return found
