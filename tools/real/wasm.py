"""Reads the parts of modules that are compared: sections, custom sections with their places, and names. Also reads archives."""

MAGIC = b"\0asm\1\0\0\0"
CUSTOM, START, DATA_COUNT = 0, 8, 12
NAME_MAPS = {4: "type", 5: "table", 6: "memory", 7: "global", 8: "elem", 9: "data", 11: "tag", 1: "func"}
INDIRECT_MAPS = {2: "local", 3: "label", 10: "field"}


class Malformed(Exception):
    """The bytes are malformed."""


def number(data, at):
    """Reads an unsigned LEB128 number, and returns it with the offset after it."""
    value = shift = 0
    while True:
        if at >= len(data):
            raise Malformed("a number is truncated")
        byte = data[at]
        value |= (byte & 0x7F) << shift
        at, shift = at + 1, shift + 7
        if byte < 0x80:
            return value, at


def chunk(data, at):
    """Reads a length and that many bytes, and returns the bytes with the offset after them."""
    size, at = number(data, at)
    if at + size > len(data):
        raise Malformed("a list of bytes is truncated")
    return data[at:at + size], at + size


def sections(wasm):
    """Returns the id and the contents of each section, in order."""
    if wasm[:8] != MAGIC:
        raise Malformed("not a core module")
    found, at = [], 8
    while at < len(wasm):
        kind = wasm[at]
        content, at = chunk(wasm, at + 1)
        found.append((kind, content))
    return found


def holds_something(kind, content):
    """Reports whether a section shows in the text: a start section always, a data count never, any other if its list is not empty."""
    return kind == START or (kind != DATA_COUNT and content[:1] != b"\0")


def plain_sections(wasm):
    """Returns the sections that are neither custom nor empty."""
    return [(kind, content) for kind, content in sections(wasm) if kind != CUSTOM and (kind == DATA_COUNT or holds_something(kind, content))]


def custom_sections(wasm):
    """Returns the custom sections in order: name, contents, and the id of the last section before it that shows in the text."""
    found, place = [], None
    for kind, content in sections(wasm):
        if kind == CUSTOM:
            name, at = chunk(content, 0)
            found.append((name, content[at:], place))
        elif holds_something(kind, content):
            place = kind
    return found


def name_map(data, at, label, found):
    """Adds the names of a name map to `found`, under the label and their indices. Returns the offset after the map."""
    count, at = number(data, at)
    for _ in range(count):
        index, at = number(data, at)
        name, at = chunk(data, at)
        found[(*label, index)] = name
    return at


def subsection_names(kind, data, found):
    """Adds the names of one subsection of a name section to `found`."""
    if kind == 0:
        found[("module",)] = chunk(data, 0)[0]
    elif kind in NAME_MAPS:
        name_map(data, 0, (NAME_MAPS[kind],), found)
    elif kind in INDIRECT_MAPS:
        count, at = number(data, 0)
        for _ in range(count):
            outer, at = number(data, at)
            at = name_map(data, at, (INDIRECT_MAPS[kind], outer), found)


def names(wasm):
    """Returns the names of all name sections, by the kind and the index of the item. Reading a section stops at its first malformed byte."""
    found = {}
    for name, data, _ in custom_sections(wasm):
        at = 0
        try:
            while name == b"name" and at < len(data):
                content, end = chunk(data, at + 1)
                subsection_names(data[at], content, found)
                at = end
        except Malformed:
            pass
    return found


def members(archive):
    """Returns the name and the contents of each member of a Unix archive that is a module."""
    found, at, long_names = [], 8, b""
    while at + 60 <= len(archive):
        name, size = archive[at:at + 16].decode("latin-1").strip(), int(archive[at + 48:at + 58])
        content, at = archive[at + 60:at + 60 + size], at + 60 + size + size % 2
        if name == "//":
            long_names = content
        elif name[:1] == "/" and name[1:].isdigit():
            name = long_names[int(name[1:]):].split(b"\n")[0].decode("latin-1")
        if content[:8] == MAGIC:
            found.append((name.rstrip("/"), content))
    return found
