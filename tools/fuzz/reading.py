"""Readers of parts. A reader is a function that takes bytes from an `Input` and returns a part."""

from fuzz.tree import BYTES, LIST, MORE, NUMBER, SEQUENCE, SIZED, Part


class Unreadable(Exception):
    """The bytes have no part of the grammar here."""


class Input:
    """Bytes, and the offset of the next one."""

    def __init__(self, data):
        self.data, self.at = data, 0

    def is_empty(self):
        return self.at == len(self.data)

    def take(self, count):
        """Returns the next bytes."""
        if count > len(self.data) - self.at:
            raise Unreadable
        self.at += count
        return self.data[self.at - count : self.at]

    def number(self, is_signed):
        """Reads a number in LEB128. Returns its value and the number of its bytes."""
        value, width = 0, 0
        while True:
            byte = self.take(1)[0]
            value |= (byte & 0x7F) << 7 * width
            width += 1
            if byte < MORE:
                break
        if is_signed and byte & 0x40:
            value -= 1 << 7 * width
        return value, width


def fixed(what, count):
    """Returns a reader of this many bytes."""
    return lambda source: Part(BYTES, what, data=source.take(count))


def numeric(what, is_signed=False):
    """Returns a reader of a number."""

    def read(source):
        value, width = source.number(is_signed)
        return Part(NUMBER, what, value=value, is_signed=is_signed, width=width)

    return read


def sequence(what, *readers):
    """Returns a reader of one part for each reader."""
    return lambda source: Part(SEQUENCE, what, parts=[read(source) for read in readers])


def listed(what, read_item):
    """Returns a reader of a list of items after their number."""

    def read(source):
        count, width = source.number(False)
        return Part(LIST, what + " list", parts=[read_item(source) for _ in range(count)], item=what, width=width)

    return read


def remaining(what, read_item):
    """Returns a reader of items up to the end."""

    def read(source):
        part = Part(SEQUENCE, what + " sequence", item=what)
        while not source.is_empty():
            part.parts.append(read_item(source))
        return part

    return read


def chosen(what, rows, default=None):
    """Returns a reader of a byte and of what the readers read that its row has. `default` is the row of any other byte."""

    def read(source):
        first = source.take(1)
        row = rows.get(first[0], default)
        if row is None:
            raise Unreadable
        return Part(SEQUENCE, what, parts=[Part(BYTES, what + " byte", data=first), *(read_part(source) for read_part in row)])

    return read


def sized(what, read_inner):
    """Returns a reader of a part after its size. If it can't be read in full, it is a part of bytes."""

    def read(source):
        count, width = source.number(False)
        data = source.take(count)
        inner = Input(data)
        try:
            part = read_inner(inner)
            if not inner.is_empty():
                raise Unreadable
        except Unreadable:
            part = Part(BYTES, what + " bytes", data=data)
        return Part(SIZED, what, parts=[part], width=width)

    return read


def rest(what):
    """Returns a reader of all bytes up to the end."""
    return lambda source: Part(BYTES, what, data=source.take(len(source.data) - source.at))
