"""Mutants: names of files, and code before and after a change."""

from edits import BadEdit, replaced, value
from rename.repository import apply


def after(text, old, new):
    """Returns a text with the first occurrence of `old` replaced, and the place, or `None` if there is none."""
    at = text.find(old) if old else -1
    return (None, at) if at < 0 else (text[:at] + new + text[at + len(old) :], at)


def part(rename, path, copy, at, size):
    """Returns what the text at a place of a copy of a file becomes: the copy decides what names mean."""
    return apply(copy, rename.edits(path, copy), at, at + size)


def renamed_mutant(rename, path, text):
    """Returns the text of a mutant after a renaming. Each pair is seen in a copy of its file, changed by the earlier pairs."""
    crate = path.rpartition("/")[0].rpartition("/")[0]
    file, copies, old, lines = None, {}, None, []
    for line in text.split("\n"):
        if (name := value(line, "file")) is not None:
            file = f"{crate}/{name}"
            copies.setdefault(file, rename.repository.text(file) if file in rename.repository.paths else "")
            lines.append(f"file: {rename.new_path(file)[len(crate) + 1 :]}")
        elif (code := value(line, "old")) is not None:
            old = code
            at = copies.get(file, "").find(code)
            lines.append(line if at < 0 else f"old: {part(rename, file, copies[file], at, len(code))}")
        elif (code := value(line, "new")) is not None and old is not None:
            copy, at = after(copies.get(file, ""), old, code)
            lines.append(line if copy is None else f"new: {part(rename, file, copy, at, len(code))}")
            copies[file], old = copy or copies.get(file, ""), None
        else:
            lines.append(apply(line, rename.line_edits(path, line)))
    rename.restore(copies)
    return "\n".join(lines)


def broken_mutants(repository):
    """Returns the mutants that no longer apply after all changes, with reasons."""
    before = {new: old for old, new in repository.moves.items()}
    found = []
    for path in repository.names(r"\.edit$", repository.touched()):
        crate = path.rpartition("/")[0].rpartition("/")[0]
        file, copies, old = None, {}, None
        try:
            for line in repository.current(path).split("\n"):
                if (name := value(line, "file")) is not None:
                    file = f"{crate}/{name}"
                    copies.setdefault(file, repository.current(before.get(file, file)) if before.get(file, file) in repository.paths else "")
                elif (code := value(line, "old")) is not None:
                    old = code
                elif (code := value(line, "new")) is not None:
                    copies[file] = replaced(copies[file], old, code)
        except (BadEdit, KeyError) as reason:
            found.append(f"{path}: {reason}")
    return found
