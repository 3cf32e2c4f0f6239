"""Reads files of rows and of cases. crates/check_rows/data/README.md and bindings/cases.txt describe their formats."""

import dataclasses
import re

from growth.parts import ARRAY, CONST, I32, body, func_type, module, one_body, struct_type

SELECT = b"\x1b"


@dataclasses.dataclass
class Row:
    """A row: its title, its module, and the lines of its typed text. The title of an operator's row is the line itself, and its text is left out."""

    title: str
    wasm: bytes
    lines: list[str]


def with_node(operator):
    """Returns the module of a row `node`: the operator between eight constants and `select`. operators_folded.txt describes the module."""
    types = [func_type(0, 2), func_type(2, 1), struct_type([I32 + b"\0"] * 3), ARRAY + I32 + b"\0", func_type(1)]
    code = CONST * 8 + operator + SELECT
    return module(types=types, imports=[b"\0\0\0\1"], functions=[b"\0"], tags=[b"\0\4"], bodies=[body(code)])


def rows_of(text):
    """Returns the rows in the text of a file, in order. The options, places and errors of a row are left out."""
    found = []
    for line in text.split("\n"):
        word, _, rest = line.partition(" ")
        if typed := re.match(r"\w*\|(.*)", line):
            found[-1].lines.append(typed[1])
        elif word in ("row", "case"):
            found.append(Row(rest, b"", []))
        elif word == "operator":
            found.append(Row(line, one_body(bytes.fromhex(rest.split(": ")[0])), []))
        elif word == "node":
            found.append(Row(line, with_node(bytes.fromhex(rest.split(": ")[1])), []))
        elif word == "wasm":
            found[-1].wasm += bytes.fromhex(rest)
        elif word == "copies":
            number, _, digits = rest.partition(" ")
            found[-1].wasm += bytes.fromhex(digits) * int(number)
        elif word == "zeros":
            found[-1].wasm += bytes(int(rest))
    return found
