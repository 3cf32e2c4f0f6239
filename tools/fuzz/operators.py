"""Expressions and operators in the binary format, typed from the standard and its proposals."""

from fuzz.reading import Unreadable, chosen, fixed, listed, numeric, rest, sequence, sized
from fuzz.tree import BYTES, SEQUENCE, Part

BYTE = fixed("byte", 1)
INDEX = numeric("index")
NAME = sized("name", rest("characters"))
HEAP_TYPE = numeric("heap type", is_signed=True)
REFERENCES = (0x63, 0x64)
VALUE_TYPE = chosen("value type", {byte: (HEAP_TYPE,) for byte in REFERENCES}, default=())
BLOCK_TYPE = numeric("block type", is_signed=True)

END, DELEGATE, OPENERS = 0x0B, 0x18, (0x02, 0x03, 0x04, 0x06, 0x1F)
PREFIXES = (0xFB, 0xFC, 0xFD, 0xFE)
OTHER_MEMORY = 0x40  # the flag of a memory argument with the index of a memory


def memory_argument(source):
    """Reads the flags of a memory argument, the index of its memory if the flags say so, and the offset."""
    flags = INDEX(source)
    index = [INDEX(source)] if flags.value & OTHER_MEMORY else []
    return Part(SEQUENCE, "memory argument", parts=[flags, *index, numeric("offset")(source)])


def block_type(source):
    """Reads the type of a block: a value type, or the index of a type."""
    return VALUE_TYPE(source) if source.data[source.at : source.at + 1] in (b"\x63", b"\x64") else BLOCK_TYPE(source)


CATCH = chosen("catch", {0: (INDEX, INDEX), 1: (INDEX, INDEX), 2: (INDEX,), 3: (INDEX,)})

# The readers of immediates, by the letters of the tables below
LETTERS = {
    "i": INDEX, "n": numeric("integer", is_signed=True), "b": block_type, "m": memory_argument, "t": listed("value type", VALUE_TYPE),
    "l": listed("index", INDEX), "c": listed("catch", CATCH), "h": HEAP_TYPE, "1": BYTE, "4": fixed("float", 4), "8": fixed("double", 8),
    "x": fixed("vector", 16),
}  # fmt: skip

# The opcodes that have immediates, by prefix: the first and the last of a range, and the letters of the immediates
IMMEDIATES = {
    None: (
        (0x02, 0x04, "b"), (0x06, 0x06, "b"), (0x07, 0x09, "i"), (0x0C, 0x0D, "i"), (0x0E, 0x0E, "li"), (0x10, 0x10, "i"), (0x11, 0x11, "ii"),
        (0x12, 0x12, "i"), (0x13, 0x13, "ii"), (0x14, 0x15, "i"), (0x18, 0x18, "i"), (0x1C, 0x1C, "t"), (0x1F, 0x1F, "bc"), (0x20, 0x26, "i"),
        (0x28, 0x3E, "m"), (0x3F, 0x40, "i"), (0x41, 0x42, "n"), (0x43, 0x43, "4"), (0x44, 0x44, "8"), (0xD0, 0xD0, "h"), (0xD2, 0xD2, "i"),
        (0xD5, 0xD6, "i"),
    ),
    0xFB: (
        (0x00, 0x01, "i"), (0x02, 0x05, "ii"), (0x06, 0x07, "i"), (0x08, 0x0A, "ii"), (0x0B, 0x0E, "i"), (0x10, 0x10, "i"), (0x11, 0x13, "ii"),
        (0x14, 0x17, "h"), (0x18, 0x19, "1ihh"),
    ),
    0xFC: ((0x08, 0x08, "ii"), (0x09, 0x09, "i"), (0x0A, 0x0A, "ii"), (0x0B, 0x0B, "i"), (0x0C, 0x0C, "ii"), (0x0D, 0x0D, "i"), (0x0E, 0x0E, "ii"),
           (0x0F, 0x11, "i")),
    0xFD: ((0x00, 0x0B, "m"), (0x0C, 0x0D, "x"), (0x15, 0x22, "1"), (0x54, 0x5B, "m1"), (0x5C, 0x5D, "m")),
    0xFE: ((0x00, 0x02, "m"), (0x03, 0x03, "1"), (0x10, 0x4E, "m")),
}  # fmt: skip


def immediates_of(prefix, opcode):
    """Returns the readers of an operator's immediates."""
    letters = next((letters for first, last, letters in IMMEDIATES[prefix] if first <= opcode <= last), "")
    return [LETTERS[letter] for letter in letters]


def operator(source):
    """Reads an operator. One that opens a block contains the operators of the block."""
    first = source.take(1)
    parts, opcode, prefix = [Part(BYTES, "opcode", data=first)], first[0], None
    if opcode in PREFIXES:
        parts.append(numeric("opcode number")(source))
        prefix, opcode = opcode, parts[-1].value
    parts += [read(source) for read in immediates_of(prefix, opcode)]
    if prefix is None and opcode in OPENERS:
        parts += [operators_to_end(source), operator(source)]
    return Part(SEQUENCE, "operator", parts=parts)


def operators_to_end(source):
    """Reads operators up to the one that ends their block, which remains."""
    part = Part(SEQUENCE, "operators", item="operator")
    while True:
        if source.is_empty():
            raise Unreadable
        if source.data[source.at] in (END, DELEGATE):
            return part
        part.parts.append(operator(source))


# an expression or the operators of a body, with the `end`
EXPRESSION = sequence("expression", operators_to_end, operator)
