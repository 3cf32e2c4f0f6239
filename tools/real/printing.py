"""Prints a module with every set of options, and makes the checks of the texts that need no assembler.

With the ANSI escape sequences deleted, a text with `--color` must equal the text without it. A text with `--offsets` must equal the text
without it, except for white space and the places at the start of lines. Each line of a skeleton must occur in the whole text, in order, up
to the `...` that replaces the omitted part. A skeleton must have a line for each field of the module.
"""

import hashlib
import io
import itertools
import os
import re

from running import run, write

SEQUENCE = re.compile(rb"\x1b\[[0-9;]*m")
PLACE = re.compile(rb"^\(;@[0-9a-f]+ *;\)", re.M)
FIELD = re.compile(rb"^(?:\(;@[0-9a-f]+ *;\))?  \(")
PIECE = 1 << 22
WORDS = ("--name-unnamed", "--fold")  # the options that change a text; `--offsets`, `--skeleton` and `--color` only add to it or omit parts
EXPECTED = (b"error: legacy exception operator at byte", b"error: branch hint at byte")  # the intended errors with --fold


class Printed:
    """The results of printing a module: the texts to assemble, the number of sets that printed, the refusals, and the failed checks."""

    def __init__(self):
        self.texts, self.sets, self.refused, self.failed = {}, 0, {}, []


def pieces(text):
    """Yields a text in pieces of whole lines, so that checking a long text needs little additional memory."""
    at = 0
    while at < len(text):
        cut = text.find(b"\n", at + PIECE)
        end = len(text) if cut < 0 else cut + 1
        yield text[at:end]
        at = end


def squeezed(text):
    """Returns a digest of a text without its places and white space."""
    digest = hashlib.sha256()
    for piece in pieces(text):
        digest.update(PLACE.sub(b"", piece).translate(None, b" \t\n"))
    return digest.digest()


def matches(line, whole):
    """Reports whether a line of a skeleton equals a line of the whole text, except for closing parentheses, or equals it up to ` ...)`."""
    cut = line.find(b" ...)")
    return line.rstrip(b")") == whole.rstrip(b")") if cut < 0 else whole.startswith(line[:cut])


def skeleton_fault(skeleton, whole):
    """Returns the first difference between a skeleton and the whole text, or `None`."""
    lines, fields = io.BytesIO(whole), 0
    for line in io.BytesIO(skeleton):
        line = line.rstrip(b"\n")
        fields += FIELD.match(line) is not None
        if PLACE.sub(b"", line).strip() != b")" and not any(matches(line, other.rstrip(b"\n")) for other in lines):
            return f"line {line[:80]!r} is missing in the whole text, or out of order"
    expected = sum(FIELD.match(line) is not None for line in io.BytesIO(whole))
    return None if fields == expected else f"the skeleton has {fields} fields, the whole text {expected}"


def color_fault(colored, text):
    """Returns the first difference between a text with ANSI escape sequences and the text without them, or `None`."""
    at = 0
    for piece in pieces(colored):
        plain = SEQUENCE.sub(b"", piece)
        if text[at:at + len(plain)] != plain:
            return "without its escape sequences it differs from the text"
        at += len(plain)
    if at != len(text):
        return "without its escape sequences it is only a prefix of the text"
    return "it contains no escape sequences" if colored == text else None


class Printer:
    """Runs printwasm on one module."""

    def __init__(self, program, path, printed):
        self.program, self.path, self.printed = program, path, printed

    def text(self, words):
        """Returns the text with a set of options, or `None` if printwasm refuses it. Checks that a refusal is one line and status 1."""
        ran = run([self.program, *words, self.path])
        if ran.status == 0 and not ran.err:
            self.printed.sets += 1
            return ran.out
        if ran.status != 1 or ran.out or ran.err.count(b"\n") != 1 or not ran.err.startswith(b"error: "):
            self.failed(words, f"status {ran.status}, {len(ran.out)} bytes of text, message {ran.err[:200]!r}")
        self.printed.refused[words] = ran.fault()
        return None

    def failed(self, words, why):
        self.printed.failed.append(f"{' '.join(words) or 'no option'}: {why}")

    def judged(self, words, fault):
        if fault:
            self.failed(words, fault)

    def both(self, words):
        """Returns the text with a set of options, and checks the text with `--color` against it."""
        text = self.text(words)
        colored = self.text((*words, "--color"))
        if text is None or colored is None:
            if text is not colored:
                self.failed(words, "it prints only with or only without --color")
            return text
        self.judged((*words, "--color"), color_fault(colored, text))
        return text

    def kind(self, words):
        """Prints and checks the eight sets of options that contain these of WORDS. Returns the whole text without and with places."""
        whole = self.both(words)
        placed = self.both((*words, "--offsets"))
        if whole is not None and placed is not None and squeezed(placed) != squeezed(whole):
            self.failed((*words, "--offsets"), "it differs from the text in more than places and white space")
        for extra, text in (((), whole), (("--offsets",), placed)):
            skeleton = self.both((*words, *extra, "--skeleton"))
            if skeleton is not None and text is not None:
                self.judged((*words, *extra, "--skeleton"), skeleton_fault(skeleton, text))
        return whole, placed


def printed_texts(program, path, folder):
    """Prints with all 32 sets. Writes the eight texts without `--color` and `--skeleton` to files of the folder, for the assemblers."""
    printed = Printed()
    printer = Printer(program, path, printed)
    for count in range(len(WORDS) + 1):
        for words in itertools.combinations(WORDS, count):
            whole, placed = printer.kind(words)
            for extra, text in (((), whole), (("--offsets",), placed)):
                if text is not None:
                    name = "".join((*words, *extra)).replace("--", "-") or "-plain"
                    printed.texts[(*words, *extra)] = write(os.path.join(folder, f"text{name}.wat"), text)
    return printed
