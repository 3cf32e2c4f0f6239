"""The tree of a module: its parts, with their encoding."""

import dataclasses

BYTES, NUMBER, SEQUENCE, LIST, SIZED = "bytes", "number", "sequence", "list", "sized"
MORE = 0x80  # the bit of a byte of a number that is not the last


@dataclasses.dataclass
class Part:
    """A part of a module.

    `kind`: BYTES are as they are, a NUMBER is in LEB128, a SEQUENCE has parts one after the other, a LIST has their number before them, and a
    SIZED part their size in bytes.
    `what`: the name of the part in the grammar. `item`: that of the parts of a list, or of a sequence of any length; otherwise empty.
    `width`: the least number of bytes of the number, of the count or of the size. `skew`: is added to the count or to the size.
    """

    kind: str
    what: str
    data: bytes = b""
    value: int = 0
    is_signed: bool = False
    parts: list = dataclasses.field(default_factory=list)
    item: str = ""
    width: int = 1
    skew: int = 0


def number(value, is_signed, width):
    """Returns a number in LEB128 of at least this many bytes."""
    out = bytearray()
    while len(out) + 1 < width or not (-64 <= value < 64 if is_signed else 0 <= value < 128):
        out.append(value & 0x7F | MORE)
        value >>= 7
    return bytes(out) + bytes([value & 0x7F])


def encode(part):
    """Returns the bytes of a part."""
    if part.kind == BYTES:
        return part.data
    if part.kind == NUMBER:
        return number(part.value, part.is_signed, part.width)
    inner = b"".join(map(encode, part.parts))
    if part.kind == SEQUENCE:
        return inner
    count = len(part.parts) if part.kind == LIST else len(inner)
    return number(max(0, count + part.skew), False, part.width) + inner


def copied(part):
    """Returns a copy of a part and of all its parts."""
    return dataclasses.replace(part, parts=[copied(inner) for inner in part.parts])


def parts_of(part):
    """Returns a part and all parts in it, in order."""
    found, waiting = [], [part]
    while waiting:
        found.append(waiting.pop())
        waiting += reversed(found[-1].parts)
    return found
