"""Encodes numbers, strings, lists and sections in the binary format."""

TYPES = {"i32": 0x7F, "i64": 0x7E, "f32": 0x7D, "f64": 0x7C, "v128": 0x7B}
FUNCREF = 0x70


def unsigned(n):
    """Returns an unsigned number in LEB128."""
    out = bytearray()
    while n > 0x7F:
        out.append(n & 0x7F | 0x80)
        n >>= 7
    out.append(n)
    return bytes(out)


def signed(n):
    """Returns a signed number in LEB128."""
    out = bytearray()
    while not -64 <= n <= 63:
        out.append(n & 0x7F | 0x80)
        n >>= 7
    out.append(n & 0x7F)
    return bytes(out)


def string(text):
    """Returns the UTF-8 bytes of a string after their number."""
    data = text.encode()
    return unsigned(len(data)) + data


def listed(items):
    """Returns a list of items after their number."""
    return unsigned(len(items)) + b"".join(items)


def sized(data):
    """Returns bytes after their number."""
    return unsigned(len(data)) + data


def section(kind, data):
    """Returns a section: its id, its size and its contents."""
    return bytes([kind]) + sized(data)


def custom(name, data):
    """Returns a custom section."""
    return section(0, string(name) + data)


def types(names):
    """Returns a list of value types."""
    return unsigned(len(names)) + bytes(TYPES[n] for n in names)


def counted_i32(n):
    """Returns the expression of an i32 constant, with its `end`."""
    return b"\x41" + signed(n) + b"\x0b"
