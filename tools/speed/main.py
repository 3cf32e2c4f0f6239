"""main.py PROGRAM WORK REAL DATA [FILE..]: measures, and writes the tables. tools/speed.sh calls it and documents it."""

import os
import sys

from measure import GNU_TIME, VALGRIND, measured
from module import module
from origin import head
from tables import JUDGED, Row, faults, growth, instructions, memories, missed, sizes, summary, times
from tools import all_tools

EMPTY = b"\0asm\1\0\0\0"


def written(path, data):
    """Writes a file, and returns its path."""
    with open(path, "wb") as file:
        file.write(data)
    return path


def made_files(work):
    """Generates the empty module, which shows the cost of starting a program, and a module of each size.

    Returns a name and a path for each, and whether the file counts for growth.
    """
    sizes = [int(word) for word in os.environ.get("SIZES", "100 1000 10000").split()]
    files = [("empty", written(os.path.join(work, "empty.wasm"), EMPTY), False)]
    for size in sizes:
        name = f"made {size} KB"
        files.append((name, written(os.path.join(work, f"made{size}.wasm"), module(size * 1050)), True))
    return files


def real_files(folder):
    """Returns all modules of over 100 KB under a folder, the smallest first."""
    paths = [os.path.join(where, name) for where, _, names in os.walk(folder) for name in names if name.endswith(".wasm")]
    # packages contain links to files that are not installed
    return sorted((p for p in paths if os.path.isfile(p) and os.path.getsize(p) > JUDGED), key=lambda p: (os.path.getsize(p), p))


def short_names(paths):
    """Returns a name for each path: that of the file, with as many of its folders as make it differ from all others."""
    parts, names = [path.split(os.sep) for path in paths], []
    for own in parts:
        others = [other for other in parts if other is not own]
        count = next((n for n in range(1, len(own)) if not any(other[-n:] == own[-n:] for other in others)), len(own))
        names.append("/".join(own[-count:]))
    return names


def all_files(work, real, given):
    """Returns all files to measure, without duplicates."""
    others = list(dict.fromkeys(os.path.realpath(p) for p in given + real_files(real)))
    return made_files(work) + [(name, path, False) for name, path in zip(short_names(others), others)]


INTRODUCTION = """# Time and memory of printwasm and of other printers

[SPEED](../SPEED.md) says what is measured and how to read the tables.
"""


def load(load_before):
    """Describes the load of the machine before and after the measurement. Times of a busy machine are not reliable."""
    load_after = os.getloadavg()[0]
    noisy = " **The machine did other things as well, so the times are noisy.**" if load_before > 0.7 or load_after > 1.7 else ""
    return f"Load of the machine at the beginning {load_before:.2f}, at the end {load_after:.2f} (1 is this script's own).{noisy}\n"


def missing(tools):
    """Returns a line for each tool that is missing."""
    names = [name for name in ("wasm-tools", "wasm2wat") if name not in [tool.name for tool in tools]]
    lines = [f"`{name}` is missing, so it has no columns.\n" for name in names]
    lines += [] if GNU_TIME else ["GNU time is missing, so each peak of memory is reported as at least that of python3.\n"]
    return "".join(lines + ([] if VALGRIND else ["valgrind is missing, so instructions were not counted.\n"]))


def measured_rows(files, tools, mode, work):
    """Measures each file, and returns a row for each. Reports progress on standard error."""
    rows = []
    for name, path, made in files:
        print(f"speed: {mode}: {name}", file=sys.stderr, flush=True)
        rows.append(Row(name, os.path.getsize(path), made, measured(tools, mode, path, work)))
    return rows


def tables_of(mode, rows, tools):
    """Returns the tables of one mode."""
    names = [tool.name for tool in tools]
    kinds = (("Sizes", sizes), ("Time", times), ("Instructions", instructions), ("Memory", memories), ("Growth", growth))
    return "".join(f"## {word}, {mode}\n\n{made(rows, names)}\n" for word, made in kinds)


def part(title, lines, none=""):
    """Returns a part of the output: its title and its lines as a list, or `none` if there are no lines. If both are empty, returns no text."""
    content = "".join(f"- {line}\n" for line in lines) or none
    return f"## {title}\n\n{content}\n" if content else ""


def main(program, work, real, data, *given):
    load_before, tools = os.getloadavg()[0], all_tools(program)
    files = all_files(work, real, list(given))
    modes = {mode: measured_rows(files, tools, mode, work) for mode in ("flat", "folded")}
    versions = [f"{tool.name} {tool.version()}" for tool in tools[1:]]
    text = f"{INTRODUCTION}{head('tools/speed.sh', program, versions)}{load(load_before)}{missing(tools)}\n## Summary\n\n"
    text += "printwasm divided by the other printer: the least, the median and the greatest, of the files of over 100 KB.\n\n"
    text += summary(modes, [tool.name for tool in tools])
    details = "".join(tables_of(mode, rows, tools) for mode, rows in modes.items())
    details += part("Peers that failed", [line for mode, rows in modes.items() for line in faults(rows, mode)])
    details += part("Limits missed", [line for mode, rows in modes.items() for line in missed(rows, mode)], "None.\n")
    written(data, (text + "\n" + details.rstrip("\n") + "\n").encode())
    print(text, end="")


main(*sys.argv[1:])
