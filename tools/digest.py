#!/usr/bin/env python3
"""Computes digests of what `printwasm` prints, to show that its texts stay the same (docs/GUARANTEES.md, "Stable text").

The program prints the module of each row of crates/check_rows/data with each set of its options. The options are those of its usage line. For each
set, the digest is the SHA-256 of four fields for each row, in the order of the files' names and of their rows: the title of the row, the exit
status in decimal, standard output and standard error. Before each field comes its length in bytes, as a number of eight bytes, least byte first.

tools/digest.py --check [PROGRAM]: a step of the gate. Compares with the table in docs/data/texts.md, and prints each set of options that differs.
    The status is 1 if there is one, or if the table has no numbers.
tools/digest.py --write [PROGRAM]: writes docs/data/texts.md.
tools/digest.py --list [PROGRAM]: prints a line for each set of options and row: the options, the file, the title, the exit status, the bytes of
    standard output, and the SHA-256 of the row's fields. The lists of two programs show which rows differ: compare them by `diff`.

PROGRAM is by default the one that the variable PRINTWASM names, or else crates/printwasm/out/printwasm, which `rt ci` and `rt run` build. A row
whose status is neither 0 nor 1, or that takes more than 60 seconds, ends each command with status 2. So does a missing program.
"""

import concurrent.futures
import dataclasses
import datetime
import functools
import hashlib
import itertools
import os
import pathlib
import re
import subprocess
import sys
import tempfile

sys.dont_write_bytecode = True

from common.origin import commit, program_line  # noqa: E402
from common.rows import rows_of  # noqa: E402

ROOT = pathlib.Path(__file__).resolve().parent.parent
ROWS = "crates/check_rows/data"
DATA = "docs/data/texts.md"
SECONDS = 60  # for a run of the program
USAGE_STATUS = 2
PAGE = """# Digests of the texts of all rows

[GUARANTEES](../GUARANTEES.md#stable-text) promises that a text stays the same in later releases. `python3 -B tools/digest.py --check`, a step of the
gate, compares these digests with those of the built program; the head of the script says what a digest covers.
A line is about the modules of all rows of `crates/check_rows/data`, printed with one set of options. "Printed" is the number of modules with exit
status 0; the others are refused, and their messages count. A new row changes all digests, and so does a row with another title or other bytes.

Made by `python3 -B tools/digest.py --write`{origin}

| Options | Modules | Printed | Bytes of text | SHA-256 |
|---|---:|---:|---:|---|
"""
HELP = f"""digest: a digest does not say which rows differ. Run `tools/digest.py --list PROGRAM` with this program and with one of the commit that
{DATA} names, both in the same checkout, and compare the lists by `diff`. After a change of rows, CONTRIBUTING.md says what to run."""


class Failed(Exception):
    """The reason why there are no digests."""


@dataclasses.dataclass
class Digest:
    """What a set of options prints: its name, its numbers of modules, printed modules and bytes of text, the digest, and the lines of `--list`."""

    name: str
    modules: int
    printed: int
    size: int
    digest: str
    listed: list[str]

    def row(self):
        """Returns the row of the table."""
        name = self.name if self.name == "none" else f"`{self.name}`"
        return f"| {name} | {self.modules:,} | {self.printed:,} | {self.size:,} | `{self.digest}` |"


def options_of(program):
    """Returns the options in the usage line, which the program writes if it is started without arguments."""
    try:
        ran = subprocess.run([program], capture_output=True, timeout=SECONDS, check=False)
    except (OSError, subprocess.TimeoutExpired) as reason:
        raise Failed(f"the program can't be run: {reason}. Build it (see the README), or name one") from reason
    options = re.findall(r"\[(--[\w-]+)\]", ran.stderr.decode("utf-8", "replace"))
    if ran.returncode != USAGE_STATUS or not options:
        raise Failed(f"{program} has status {ran.returncode} without arguments, or writes no usage line")
    return options


def sets_of(options):
    """Returns all sets of the options, smaller ones first."""
    return [chosen for count in range(len(options) + 1) for chosen in itertools.combinations(options, count)]


def write_modules(folder):
    """Writes the modules of all rows to a folder, each to a file with its number. Returns the file and the title of each row."""
    rows = []
    for path in sorted((ROOT / ROWS).glob("*.txt")):
        for row in rows_of(path.read_text(encoding="utf-8")):
            pathlib.Path(folder, str(len(rows))).write_bytes(row.wasm)
            rows.append((path.name, row.title))
    return rows


def run_on(program, folder, number, options):
    """Runs the program on the module with a number that `write_modules` wrote to the folder."""
    try:
        ran = subprocess.run([program, *options, str(number)], cwd=folder, capture_output=True, timeout=SECONDS, check=False)
    except subprocess.TimeoutExpired as reason:
        raise Failed(f"it takes more than {SECONDS} seconds") from reason
    if ran.returncode not in (0, 1):
        raise Failed(f"the status is {ran.returncode}")
    return ran


def digest_of(program, folder, rows, options):
    """Prints the modules of the rows with a set of options, and returns the digest."""
    name, printed, size, whole, listed = " ".join(options) or "none", 0, 0, hashlib.sha256(), []
    for number, (file, title) in enumerate(rows):
        try:
            ran = run_on(program, folder, number, options)
        except Failed as reason:
            raise Failed(f"{file}: {title}: options {name}: {reason}") from reason
        fields = (title.encode(), str(ran.returncode).encode(), ran.stdout, ran.stderr)
        data = b"".join(len(field).to_bytes(8, "little") + field for field in fields)
        whole.update(data)
        printed += ran.returncode == 0
        size += len(ran.stdout)
        listed.append("\t".join((name, file, title, str(ran.returncode), str(len(ran.stdout)), hashlib.sha256(data).hexdigest())))
    return Digest(name, len(rows), printed, size, whole.hexdigest(), listed)


def digests(program):
    """Returns the digest of each set of options. Each processor prints one set at a time."""
    sets = sets_of(options_of(program))
    with tempfile.TemporaryDirectory() as folder, concurrent.futures.ProcessPoolExecutor(os.cpu_count()) as pool:
        return list(pool.map(functools.partial(digest_of, program, folder, write_modules(folder)), sets))


def stored():
    """Returns the rows of the stored table by their options, without those that have no digest."""
    rows = re.findall(r"^\| .* \| `[0-9a-f]{64}` \|$", (ROOT / DATA).read_text(encoding="utf-8"), re.MULTILINE)
    if not rows:
        raise Failed(f"{DATA} has no digests yet: `tools/digest.py --write` computes them")
    return {row.split(" | ")[0]: row for row in rows}


def check(program):
    """Prints the sets of options whose digests differ from the stored ones. Returns the exit status."""
    old, new = stored(), {digest.row().split(" | ")[0]: digest.row() for digest in digests(program)}
    differing = [options for options in dict.fromkeys((*old, *new)) if old.get(options) != new.get(options)]
    for options in differing:
        print(f"digest: differs:\n  stored: {old.get(options, 'nothing')}\n  now:    {new.get(options, 'nothing')}")
    if differing:
        print(HELP)
    print(f"digest: {len(new.keys() - set(differing))} of {len(new)} sets of options print as stored")
    return 1 if differing else 0


def write(program):
    """Writes the table. Returns the exit status."""
    found = digests(program)
    origin = f" on {datetime.date.today():%Y-%m-%d}. Scripts and rows: {commit(str(ROOT))}.\n{program_line(program)}"
    (ROOT / DATA).write_text(PAGE.format(origin=origin) + "".join(digest.row() + "\n" for digest in found), encoding="utf-8")
    print(f"digest: wrote {DATA}: {len(found)} sets of options, {found[0].modules:,} modules each")
    return 0


def show_list(program):
    """Prints the lines of all rows. Returns the exit status."""
    print("\n".join(line for digest in digests(program) for line in digest.listed))
    return 0


COMMANDS = {"--check": check, "--write": write, "--list": show_list}


def main(words):
    if not 1 <= len(words) <= 2 or words[0] not in COMMANDS:
        print(f"usage: tools/digest.py {' | '.join(COMMANDS)} [PROGRAM]", file=sys.stderr)
        return 2
    default = os.environ.get("PRINTWASM") or ROOT / "crates/printwasm/out/printwasm"
    program = os.path.abspath(words[1] if len(words) == 2 else default)
    try:
        return COMMANDS[words[0]](program)
    except Failed as reason:
        print(f"digest: {reason}", file=sys.stderr)
        return 2


if __name__ == "__main__":
    sys.exit(main(sys.argv[1:]))
