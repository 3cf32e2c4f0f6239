"""The tracked files of the repository, with changes that are not written yet."""

import re
import subprocess

HISTORY = "CHANGELOG.md"  # lists earlier names, and never changes
TOP_PATH = re.compile(r"crates/(\w+)/(src|specs|proofs|must-fail|mutants)/")
DATA = re.compile(r"crates/\w+/(?:data/|args$|stdin$|stdout$|status$)")


class Refused(Exception):
    """The reason why nothing is renamed."""


def apply(text, edits, start=0, end=None):
    """Returns the part of a text from `start` to `end` after edits: pairs of a span and the new text of the span."""
    end = len(text) if end is None else end
    parts, at = [], start
    for (first, last), new in sorted(set(edits)):
        if at <= first and last <= end:
            parts += [text[at:first], new]
            at = last
    return "".join([*parts, text[at:end]])


class Repository:
    """The tracked files below a folder, their texts, new texts and moves."""

    def __init__(self, root):
        self.root = root
        self.paths = set(self.git("ls-files", "-z").split("\0")) - {""}
        self.folders = {path[:at] for path in self.paths for at in (m.start() for m in re.finditer("/", path))}
        self.crates = {path.split("/")[1] for path in self.paths if TOP_PATH.match(path)}
        self.originals, self.changed, self.moves = {}, {}, {}

    def git(self, *words):
        """Returns the output of a command of git."""
        return subprocess.run(["git", "-C", str(self.root), *words], check=True, capture_output=True, text=True).stdout

    def text(self, path):
        """Returns the text of a file before any change, or an empty text if it is not UTF-8."""
        if path not in self.originals:
            try:
                self.originals[path] = (self.root / path).read_bytes().decode("utf-8")
            except (UnicodeDecodeError, OSError):
                self.originals[path] = ""
        return self.originals[path]

    def change(self, path, text):
        """Gives a file a new text."""
        if text != self.text(path):
            self.changed[path] = text

    def current(self, path):
        """Returns the text of a file after its change."""
        return self.changed.get(path, self.text(path))

    def move(self, old, new):
        """Moves a file, or all files of a folder, and refuses a target that exists, also one that differs in case only."""
        if old in self.folders:
            for path in sorted(self.paths):
                if path.startswith(old + "/"):
                    self.move(path, new + path[len(old) :])
        elif old in self.paths:
            known = {path.lower() for path in self.paths | self.folders} - {old.lower()}
            if new.lower() in known or (self.root / new).exists():
                raise Refused(f"{new} exists already")
            self.moves[old] = new

    def names(self, pattern, crates=None):
        """Returns the paths of files whose names match, of these crates or of all files."""
        chosen = [path for path in self.paths if re.search(pattern, path) and path != HISTORY and not DATA.match(path)]
        return sorted(path for path in chosen if crates is None or (path.startswith("crates/") and path.split("/")[1] in crates))

    def touched(self):
        """Returns the crates of which a file changes or moves."""
        return sorted({match[1] for path in {*self.changed, *self.moves} if (match := TOP_PATH.match(path))})

    def write(self):
        """Moves the files by `git mv`, and writes the new texts."""
        for path, text in self.changed.items():
            (self.root / path).write_bytes(text.encode("utf-8"))
        for old, new in self.moves.items():
            (self.root / new).parent.mkdir(parents=True, exist_ok=True)
            self.git("mv", old, new)
        for folder in sorted({(self.root / old).parent for old in self.moves}, key=lambda folder: -len(folder.parts)):
            while folder.is_dir() and not any(folder.iterdir()):
                folder.rmdir()
                folder = folder.parent

    def plan(self):
        """Returns the lines that describe all changes."""
        lines = [f"move   {old} -> {new}" for old, new in sorted(self.moves.items())]
        for path, text in sorted(self.changed.items()):
            old, new = self.text(path).split("\n"), text.split("\n")
            lines.append(f"change {path}")
            lines += [f"  - {line.strip()}" for line in old if line not in new]
            lines += [f"  + {line.strip()}" for line in new if line not in old]
        return lines
