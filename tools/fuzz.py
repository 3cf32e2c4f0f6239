#!/usr/bin/env -S python3 -B
"""Compares the texts and messages of the library for C with those of `printwasm`, for modules that are made by changing well-formed ones.

tools/fuzz.py compare TEXTS PRINTWASM [--modules N] [--seed S] [--jobs J]
    Makes N modules (1,000 by default). Prints each with all sets of options by TEXTS, which is bindings/c/texts.c, and by the program, and compares
    texts, messages and statuses. The options are those of the program's usage line, in the order of the flags in include/wasmprinter.h. With
    `--color` the events that the library stores must have the start of each line, with the place that the line shows, and give the program's colors.
    With `--fold` too, colors are not compared: the library has no events in folded operators. Prints each difference, and the numbers of statuses. The
    status is 1 if there is a difference.
tools/fuzz.py inputs FOLDER [--modules N] [--seed S]
    Writes inputs for bindings/c/fuzz.c: the modules of all rows and shapes, and N others, each after two bytes that choose options and indent.
tools/fuzz.py cases FOLDER
    Writes the modules of bindings/cases.txt, and prints their number.
tools/fuzz.py self-test
    Checks that each module of the rows, cases and shapes that the grammar of tools/fuzz/grammar.py has is written as it was read.

The well-formed modules are those of crates/check_rows/data and bindings/cases.txt, which are typed by hand, and small ones of the shapes of
tools/growth.py. One of them is read into a tree: sections, lists, names, numbers, bodies and operators. Up to five times a part of the tree is changed
(tools/fuzz/changes.py), and the tree is encoded, with counts and sizes that fit unless one of them was changed. Some modules are cut off. The printer
makes none of these bytes. A module depends only on the seed (1 by default) and its number.
"""

import argparse
import collections
import concurrent.futures
import dataclasses
import functools
import os
import pathlib
import random
import re
import struct
import subprocess
import sys
import tempfile

sys.dont_write_bytecode = True

from common.rows import rows_of  # noqa: E402
from digest import SECONDS, options_of  # noqa: E402
from fuzz.changes import change  # noqa: E402
from fuzz.grammar import read_module  # noqa: E402
from fuzz.reading import Unreadable  # noqa: E402
from fuzz.tree import encode, parts_of  # noqa: E402
from growth.code_shapes import CODE_SHAPES  # noqa: E402
from growth.module_shapes import MODULE_SHAPES  # noqa: E402

ROOT = pathlib.Path(__file__).resolve().parent.parent
CASES = ROOT / "bindings/cases.txt"
ITEMS = 16  # of a shape
MOST_BYTES = 4096  # of a module that is changed
CHANGES = (1, 1, 2, 3, 5)
CUT_OFF = 0.02  # of the modules
AT_ONCE = 20  # modules
SHOWN = 300  # bytes of a module
OK, OFFSETS, FOLD, EVENTS = 0, 1, 8, 16
SEQUENCE = re.compile(rb"\x1b\[[\d;]*m")
LINE_AT_PLACE = 1  # the kind of a line with a place; that of a line without one is 0
PLACE_WIDTH = 11  # of the place at the start of a line, or of the spaces instead
EVENT = struct.Struct("<QQI4x")
# The escape sequences of the kinds of events
SEQUENCES = {2: "\x1b[0m\x1b[35m", 3: "\x1b[0m\x1b[31m", 4: "\x1b[0m\x1b[1m\x1b[38;5;11m", 5: "\x1b[0m\x1b[1m\x1b[38;5;10m", 6: "\x1b[0m\x1b[36m", 7: "\x1b[0m"}


def sources():
    """Returns the modules that are changed, in groups: those of each file, and those of the shapes."""
    files = [*sorted((ROOT / "crates/check_rows/data").glob("*.txt")), CASES]
    groups = [[row.wasm for row in rows_of(path.read_text(encoding="utf-8"))] for path in files]
    groups += [[shape.make(ITEMS) for shape in shapes.values()] for shapes in (MODULE_SHAPES, CODE_SHAPES)]
    return [[wasm for wasm in group if len(wasm) <= MOST_BYTES] for group in groups]


def tree_of(wasm):
    """Returns the tree of a module, or `None` if the module has no sections."""
    try:
        return read_module(wasm)
    except Unreadable:
        return None


@functools.cache
def readable():
    """Returns the groups of modules without those that have no tree, and the parts of all modules by their names."""
    groups, parts = [], collections.defaultdict(list)
    for group in sources():
        trees = [(wasm, tree_of(wasm)) for wasm in group]
        groups.append([wasm for wasm, tree in trees if tree])
        for part in (part for _, tree in trees if tree for part in parts_of(tree)):
            parts[part.what].append(part)
    return [group for group in groups if group], parts


def made(seed, number):
    """Returns the module with this number."""
    choices, (groups, parts) = random.Random(f"{seed}/{number}"), readable()
    tree = read_module(choices.choice(choices.choice(groups)))
    for _ in range(choices.choice(CHANGES)):
        change(choices, tree, parts)
        if len(encode(tree)) > MOST_BYTES:
            break
    wasm = encode(tree)
    return wasm[: choices.randrange(len(wasm) + 1)] if choices.random() < CUT_OFF else wasm


@dataclasses.dataclass
class Printed:
    """What the library printed with some flags: the status, the text or the message, and the events, each with its start, place and kind."""

    flags: int
    status: int
    text: bytes
    events: list[tuple[int, int, int]]

    def colored(self):
        """Returns the text with the escape sequence of each event at its start."""
        found, written = [], 0
        for start, _, kind in self.events:
            found += [self.text[written:start], SEQUENCES.get(kind, "").encode()]
            written = start
        return b"".join([*found, self.text[written:]])

    def has_lines(self):
        """Returns whether the events have the starts of all lines and, of a text with offsets, the places that the lines show."""
        lines = [event for event in self.events if event[2] <= LINE_AT_PLACE]
        starts = [0, *(match.end() for match in re.finditer(b"\n", self.text[:-1]))]
        shown = ((start, f"(;@{place:<6x};)" if kind == LINE_AT_PLACE else " " * PLACE_WIDTH) for start, place, kind in lines[1:])
        are_shown = not self.flags & OFFSETS or all(self.text.startswith(prefix.encode(), start) for start, prefix in shown)
        return are_shown and [start for start, _, _ in lines] == starts

    def difference(self, program, options, path):
        """Returns in which way the program prints a file differently, or `None`."""
        if self.status == OK and self.flags & EVENTS and not self.has_lines():
            return "lines"
        ran = subprocess.run([program, *options, path], capture_output=True, timeout=SECONDS, check=False)
        is_colored_tree = self.flags & FOLD and self.flags & EVENTS
        text, written = (self.text, SEQUENCE.sub(b"", ran.stdout)) if is_colored_tree else (self.colored(), ran.stdout)
        expected = (0, text, b"") if self.status == OK else (1, b"", b"error: " + self.text + b"\n")
        found = (ran.returncode, written, ran.stderr)
        return next((what for what, a, b in zip(("status", "text", "message"), expected, found) if a != b), None)


def printed_by_library(texts, paths, sets):
    """Prints each file with each set of options, and returns the results in order."""
    out = subprocess.run([texts, *paths], stdout=subprocess.PIPE, timeout=SECONDS * len(paths), check=True).stdout
    found, at = [], 0
    while at < len(out):
        end = out.index(b"\n", at)
        status, length, count = map(int, out[at:end].split())
        text_end = end + 1 + length
        at = text_end + count * EVENT.size
        found.append(Printed(len(found) % sets, status, out[end + 1 : text_end], list(EVENT.iter_unpack(out[text_end:at]))))
    if len(found) != len(paths) * sets:
        raise SystemExit(f"fuzz: the library printed {len(found)} times, and not {len(paths)} modules with {sets} sets of options")
    return found


def compare_modules(texts, program, seed, numbers):
    """Prints modules by both. Returns the numbers of statuses, and the differences."""
    statuses, differences, options = collections.Counter(), [], options_of(program)
    sets = [[option for bit, option in enumerate(options) if flags >> bit & 1] for flags in range(1 << len(options))]
    with tempfile.TemporaryDirectory() as folder:
        paths = [os.path.join(folder, str(number)) for number in numbers]
        for number, path in zip(numbers, paths):
            pathlib.Path(path).write_bytes(made(seed, number))
        for at, printed in enumerate(printed_by_library(texts, paths, len(sets))):
            path, chosen = paths[at // len(sets)], sets[printed.flags]
            statuses[printed.status] += 1
            if what := printed.difference(program, chosen, path):
                wasm = pathlib.Path(path).read_bytes()
                differences.append(f"module {os.path.basename(path)} of seed {seed}, options {chosen}: other {what}: {wasm[:SHOWN].hex(' ')}")
    return statuses, differences


def compare(words):
    """Prints the differences and the statuses. Returns the exit status."""
    chunks = [range(at, min(at + AT_ONCE, words.modules)) for at in range(0, words.modules, AT_ONCE)]
    texts, program = os.path.abspath(words.texts), os.path.abspath(words.program)
    statuses, differences = collections.Counter(), []
    with concurrent.futures.ProcessPoolExecutor(words.jobs) as pool:
        for more_statuses, more in pool.map(functools.partial(compare_modules, texts, program, words.seed), chunks):
            statuses += more_statuses
            differences += more
    for line in differences:
        print(f"fuzz: {line}")
    refused = ", ".join(f"{number} with status {status}" for status, number in sorted(statuses.items()) if status != OK)
    print(f"texts: {words.modules} modules of seed {words.seed}: {statuses.total()} prints: {statuses[OK]} texts, {refused}; {len(differences)} differences")
    return 1 if differences or not statuses[OK] else 0


def write_files(folder, files):
    """Writes files, named by their numbers."""
    os.makedirs(folder, exist_ok=True)
    for number, data in enumerate(files):
        pathlib.Path(folder, str(number)).write_bytes(data)


def inputs(words):
    """Writes the inputs for the fuzz target. Returns the exit status."""
    choices = random.Random(words.seed)
    wasms = [wasm for group in sources() for wasm in group] + [made(words.seed, number) for number in range(words.modules)]
    write_files(words.folder, (choices.randbytes(2) + wasm for wasm in wasms))
    print(f"inputs: {len(wasms)}")
    return 0


def cases(words):
    """Writes the modules of the cases. Returns the exit status."""
    wasms = [row.wasm for row in rows_of(CASES.read_text(encoding="utf-8"))]
    write_files(words.folder, wasms)
    print(len(wasms))
    return 0


def self_test(_):
    """Reads and writes all modules. Returns the exit status."""
    trees = [(wasm, tree_of(wasm)) for group in sources() for wasm in group]
    wrong = [wasm for wasm, tree in trees if tree and encode(tree) != wasm]
    for wasm in wrong:
        print(f"fuzz: written in another way than read: {wasm[:SHOWN].hex(' ')}")
    print(f"trees: {sum(tree is not None for _, tree in trees)} of {len(trees)} modules have one, {len(wrong)} are written otherwise")
    return 1 if wrong or not trees else 0


COMMANDS = {"compare": (compare, ["texts", "program"]), "inputs": (inputs, ["folder"]), "cases": (cases, ["folder"]), "self-test": (self_test, [])}


def main():
    parser = argparse.ArgumentParser(usage="see the head of tools/fuzz.py")
    commands = parser.add_subparsers(required=True)
    for name, (run, paths) in COMMANDS.items():
        command = commands.add_parser(name)
        command.set_defaults(run=run)
        for path in paths:
            command.add_argument(path)
        command.add_argument("--modules", type=int, default=1000)
        command.add_argument("--seed", type=int, default=1)
        command.add_argument("--jobs", type=int, default=os.cpu_count())
    words = parser.parse_args()
    return words.run(words)


if __name__ == "__main__":
    sys.exit(main())
