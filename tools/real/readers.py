"""Calls the assemblers, and compares each module that they make of a text with the module that was printed.

The sections of two modules are compared byte for byte, first unchanged and then normalised. Normalising encodes numbers in the fewest bytes,
drops empty sections, and so on. For `wasm-tools parse` and `wat2wasm` it is `wasm-tools print` followed by `wasm-tools parse`. `wasm-as`
generates code of its own, so for it normalising may start with `wasm-opt` without passes, which reads and writes as `wasm-as` does. If that
isn't enough, `wasm-opt -O1` optimises both modules, without removing unused functions: their code is equivalent if they are then equal. Since
`wat2wasm` and `wasm-as` encode some things by rules of their own, the module that they make of our text is also compared with the module that
they make of the text of `wasm-tools print` for the same module and options.
"""

import hashlib
import itertools
import os

from running import found, read, run
from wasm import Malformed, custom_sections, names, plain_sections

OPTIMISING = ("-O1", "--skip-pass=remove-unused-module-elements")  # the skipped pass would empty a module that exports nothing
LINE = 80  # the length to which a line is cut before it is compared
PEER_WORDS = {"--name-unnamed": "--name-unnamed", "--fold": "--fold-instructions"}
# All features except compact imports: with `--enable-all`, imports are written in a form that is out of scope.
WABT = tuple(f"--enable-{it}" for it in "threads function-references code-metadata gc custom-page-sizes wide-arithmetic".split())


class Reader:
    """An assembler: its name, its arguments, the command that reads a module, and whether names and custom sections are compared."""

    def __init__(self, name, words, binary, keeps_names, keeps_customs):
        self.name, self.words, self.binary = name, words, binary
        self.keeps_names, self.keeps_customs = keeps_names, keeps_customs
        self.path = found(name)


READERS = [
    Reader("wasm-tools", ("parse",), ("wasm-tools", "print"), True, True),
    Reader("wat2wasm", ("--no-check", "--debug-names", *WABT), ("wasm2wat", "--no-check", *WABT), True, True),
    Reader("wasm-as", ("-all", "-g", "-v", "none"), ("wasm-opt", "-all", "-g", "-n", "-q"), False, False),
]


class Verdict:
    """The result of one assembler for one text: a word of the tables, the reason, and notes on names and custom sections."""

    def __init__(self, word, why="", notes=()):
        self.word, self.why, self.notes = word, why, tuple(notes)


def printed(source, folder):
    """Returns the path of the text that `wasm-tools print` gives of a module, and `None`; or `None` and the error."""
    text = os.path.join(folder, "norm.wat")
    ran = run([found("wasm-tools"), "print", source, "-o", text])
    return (text, None) if ran.status == 0 else (None, ran.fault())


def roundtrip(source, folder):
    """Returns a module printed and parsed by `wasm-tools`, and `None`; or `None` and the error."""
    text, fault = printed(source, folder)
    if text is None:
        return None, fault
    out = os.path.join(folder, "norm.wasm")
    ran = run([found("wasm-tools"), "parse", text, "-o", out])
    return (read(out), None) if ran.status == 0 else (None, ran.fault())


def optimised(source, folder, *passes):
    """Returns the path of a module read and written by `wasm-opt`, and `None`; or `None` and the error."""
    out = os.path.join(folder, "opt.wasm")
    ran = run([found("wasm-opt"), "-all", "-n", "-q", *passes, source, "-o", out])
    return (out, None) if ran.status == 0 else (None, ran.fault())


def lines(source, folder):
    """Returns the lines of the text of a module without names and custom sections, or no lines if `wasm-tools` refuses it."""
    bare = os.path.join(folder, "bare.wasm")
    ran = run([found("wasm-tools"), "strip", "--all", source, "-o", bare])
    text, _ = printed(bare if ran.status == 0 else source, folder)
    return [line.strip()[:LINE] for line in read(text).decode("utf-8", "replace").splitlines()] if text else []


class Original:
    """The module that was printed, and its normalised forms, each computed once."""

    def __init__(self, path, folder):
        self.path, self.folder, self.wasm = path, folder, read(path)
        self.plain, self.normal, self.known, self.binaries = plain_sections(self.wasm), {}, {}, {}

    def normalised(self, path, passes):
        """Returns the normalised sections of a module, or `None`, and the error of normalising, or `None`.

        `passes` are those of `wasm-opt`, which reads and writes the module first, or `None` if it does not. It keeps numbers in more bytes than
        they need if a module has debug information; `wasm-tools` writes them in the fewest.
        """
        source, fault = (path, None) if passes is None else optimised(path, self.folder, *passes)
        wasm, fault = roundtrip(source, self.folder) if source else (None, fault)
        return (plain_sections(wasm) if wasm is not None else None), fault

    def own(self, passes):
        """Returns the normalised sections of the original, and the error, as `normalised` does."""
        if passes not in self.normal:
            self.normal[passes] = self.normalised(self.path, passes)
        return self.normal[passes]

    def is_equal(self, path, passes, unchanged=()):
        """Reports whether the original, normalised, is equal to sections that are given, or to another module after that is normalised too."""
        ours = self.own(passes)[0]
        return ours is not None and (ours in unchanged or ours == self.normalised(path, passes)[0])

    def is_normal(self, reader, path):
        """Reports whether another module is equal to the original after both are normalised in the way of its assembler."""
        known = plain_sections(read(path)), self.normalised(path, None)[0]
        ours = self.own(None)[0]
        if ours is not None and ours in known:
            return True
        # reading a module of `wasm-as` by `wasm-opt` may change it
        return reader.name == "wasm-as" and self.is_equal(path, (), known)

    def difference(self, reader, path):
        """Returns the first lines in which the texts of the original and of another module differ. `wasm-opt` rewrites both for `wasm-as`."""
        both = []
        for source in (self.path, path):
            if reader.name == "wasm-as":
                source = optimised(source, self.folder)[0] or source
            both.append(lines(source, self.folder))
        pairs = itertools.zip_longest(*both, fillvalue="")
        return next((f"{ours} / {theirs}" for ours, theirs in pairs if ours != theirs), "the texts of `wasm-tools print` are equal")

    def by_other_text(self, reader, words):
        """Returns the sections that an assembler makes of the text of `wasm-tools print` with the same options, or `None`."""
        text, out = os.path.join(self.folder, "other.wat"), os.path.join(self.folder, "other.wasm")
        options = [PEER_WORDS[word] for word in words if word in PEER_WORDS]
        if run([found("wasm-tools"), "print", *options, self.path, "-o", text]).status != 0:
            return None
        return plain_sections(read(out)) if run([reader.path, *reader.words, text, "-o", out]).status == 0 else None

    def refused_by(self, reader):
        """Returns the error of the tool that reads modules for this assembler, if it refuses the original too, or `None`."""
        if reader.name not in self.binaries:
            command = [found(reader.binary[0]), *reader.binary[1:], self.path, "-o", os.path.join(self.folder, "binary.out")]
            ran = run(command)
            self.binaries[reader.name] = None if ran.status == 0 else ran.fault()
        return self.binaries[reader.name]


def name_notes(original, again, synthesized):
    """Returns a note for each kind of names of which one differs or is missing, and for each kind of which one was added.

    Added names are expected if the text has synthesized identifiers.
    """
    ours, theirs = names(original), names(again)
    lost = dict.fromkeys(key[0] for key in ours if theirs.get(key) != ours[key])
    added = {} if synthesized else dict.fromkeys(key[0] for key in theirs if key not in ours)
    return [f"names of the kind {kind} differ or are missing" for kind in lost] + [f"names of the kind {kind} were added" for kind in added]


def custom_notes(original, again):
    """Returns a note for each custom section, except name sections, that differs, moved or is missing, or one note if only the order differs."""
    ours = [it for it in custom_sections(original) if it[0] != b"name"]
    theirs = [it for it in custom_sections(again) if it[0] != b"name"]
    lost = [it for it in ours if it not in theirs]
    if not lost and len(ours) == len(theirs):
        return [] if ours == theirs else ["custom sections in another order"]
    contents = [(name, data) for name, data, _ in theirs]
    moved = [name for name, data, _ in lost if (name, data) in contents]
    gone = [name for name, data, _ in lost if (name, data) not in contents]
    notes = [f"custom section {name.decode('utf-8', 'replace')} at another place" for name in moved]
    return notes + [f"custom section {name.decode('utf-8', 'replace')} differs or is missing" for name in gone]


def compared(original, reader, words, path):
    """Compares the sections of the assembled module with those of the original."""
    again = plain_sections(read(path))
    if again == original.plain:
        return Verdict("same")
    if original.is_normal(reader, path):
        return Verdict("normal")
    if reader.name == "wasm-as" and original.is_equal(path, OPTIMISING):
        return Verdict("equivalent", "generates other code, which is the same after `wasm-opt -O1`")
    if reader.name != "wasm-tools" and again == original.by_other_text(reader, words):
        return Verdict("alike", original.difference(reader, path))
    fault = original.own(None)[1]
    return Verdict("unknown", f"can't normalise the original: {fault}") if fault else Verdict("differs", original.difference(reader, path))


def noted(original, reader, words, verdict, path):
    """Returns the verdict with notes on names and custom sections, if the assembler keeps them."""
    again, notes = read(path), []
    if reader.keeps_names:
        notes += name_notes(original.wasm, again, "--name-unnamed" in words)
    if reader.keeps_customs:
        notes += custom_notes(original.wasm, again)
    return Verdict(verdict.word, verdict.why, notes)


def assembled(original, reader, words, text):
    """Assembles a text and returns the verdict. Modules with the same bytes are compared once."""
    out = os.path.join(original.folder, "again.wasm")
    if os.path.exists(out):
        os.remove(out)
    ran = run([reader.path, *reader.words, text, "-o", out])
    if ran.status != 0 or not os.path.exists(out):
        own = original.refused_by(reader)
        return Verdict("refused", ran.fault().replace(text, "TEXT"), [f"refuses the bytes too: {own.replace(original.path, 'MODULE')}" if own else "reads the bytes"])
    key = (reader.name, "--name-unnamed" in words, "--fold" in words, hashlib.sha256(read(out)).digest())
    if key not in original.known:
        try:
            original.known[key] = noted(original, reader, words, compared(original, reader, words, out), out)
        except Malformed as fault:
            original.known[key] = Verdict("differs", f"the assembled module is malformed: {fault}")
    return original.known[key]
