"""The binary format of modules, typed from the standard and its proposals. Expressions and operators are in fuzz.operators."""

from fuzz.operators import BYTE, EXPRESSION, HEAP_TYPE, INDEX, NAME, REFERENCES, VALUE_TYPE
from fuzz.reading import Input, Unreadable, chosen, fixed, listed, numeric, remaining, rest, sequence, sized

PREAMBLE = b"\0asm\1\0\0\0"
PLAIN_BYTES = sized("data bytes", rest("data"))

FIELD = sequence("field", VALUE_TYPE, BYTE)
COMPOSITE = {0x5E: (FIELD,), 0x5F: (listed("field", FIELD),), 0x60: (listed("value type", VALUE_TYPE), listed("value type", VALUE_TYPE))}
SUPERTYPES = (listed("index", INDEX), chosen("composite type", COMPOSITE))
SUBTYPE = {0x4F: SUPERTYPES, 0x50: SUPERTYPES, **COMPOSITE}
TYPE = chosen("type", {0x4E: (listed("subtype", chosen("subtype", SUBTYPE)),), **SUBTYPE})

SIZE = numeric("size")
# the flags of limits: 1 for a maximum, 2 for shared, 4 for 64 bits, 8 for a page size
LIMITS = chosen("limits", {flags: (SIZE,) * (1 + flags % 2) + (INDEX,) * (flags // 8) for flags in range(16)})
TABLE_TYPE = sequence("table type", VALUE_TYPE, LIMITS)
GLOBAL_TYPE = sequence("global type", VALUE_TYPE, BYTE)
TAG = sequence("tag", BYTE, INDEX)
DESCRIPTION = chosen("description", {0: (INDEX,), 1: (TABLE_TYPE,), 2: (LIMITS,), 3: (GLOBAL_TYPE,), 4: (TAG,)})
IMPORT = sequence("import", NAME, NAME, DESCRIPTION)
INITIALISED = (BYTE, TABLE_TYPE, EXPRESSION)
TABLE = chosen("table", {0x40: INITIALISED, **{byte: (HEAP_TYPE, LIMITS) for byte in REFERENCES}}, default=(LIMITS,))
GLOBAL = sequence("global", GLOBAL_TYPE, EXPRESSION)
EXPORT = sequence("export", NAME, BYTE, INDEX)

INDICES, EXPRESSIONS = listed("index", INDEX), listed("expression", EXPRESSION)
ELEMENT = chosen("element segment", {
    0: (EXPRESSION, INDICES), 1: (BYTE, INDICES), 2: (INDEX, EXPRESSION, BYTE, INDICES), 3: (BYTE, INDICES),
    4: (EXPRESSION, EXPRESSIONS), 5: (VALUE_TYPE, EXPRESSIONS), 6: (INDEX, EXPRESSION, VALUE_TYPE, EXPRESSIONS), 7: (VALUE_TYPE, EXPRESSIONS),
})  # fmt: skip
DATA = chosen("data segment", {0: (EXPRESSION, PLAIN_BYTES), 1: (PLAIN_BYTES,), 2: (INDEX, EXPRESSION, PLAIN_BYTES)})
LOCALS = sequence("locals", numeric("number of locals"), VALUE_TYPE)
BODY = sized("body", sequence("code", listed("locals", LOCALS), EXPRESSION))

NAMING = sequence("naming", INDEX, NAME)
NAME_MAP = listed("naming", NAMING)
INNER_MAP = listed("inner naming", sequence("inner naming", INDEX, NAME_MAP))
MODULE_NAME, INNER_MAPS = 0, (2, 3, 10)


def subsection(readers, default):
    """Returns a reader of a subsection: its id, and what the reader of the id reads."""

    def read(source):
        number = source.data[source.at]
        return sequence("subsection", BYTE, sized("subsection contents", readers.get(number, default)))(source)

    return read


NAMES = {MODULE_NAME: NAME, **{number: INNER_MAP for number in INNER_MAPS}}
FIELDS = listed("producers field", sequence("producers field", NAME, listed("producer", sequence("producer", NAME, NAME))))
DYLINK = {
    1: sequence("memory information", INDEX, INDEX, INDEX, INDEX),
    2: listed("name", NAME),
    3: listed("flagged name", sequence("flagged name", NAME, INDEX)),
    4: listed("flagged import", sequence("flagged import", NAME, NAME, INDEX)),
    5: listed("name", NAME),
}
HINTS = listed("function hints", sequence("function hints", INDEX, listed("hint", sequence("hint", INDEX, PLAIN_BYTES))))
CUSTOM = {
    b"name": remaining("subsection", subsection(NAMES, NAME_MAP)),
    b"producers": FIELDS,
    b"dylink.0": remaining("subsection", subsection(DYLINK, rest("data"))),
    b"metadata.code.branch_hint": HINTS,
}


def custom(source):
    """Reads the contents of a custom section. If they are not those of its name, they are a part of bytes."""
    part = sequence("custom section", NAME)(source)
    data = source.take(len(source.data) - source.at)
    inner = Input(data)
    try:
        contents = CUSTOM.get(part.parts[0].parts[0].data, rest("data"))(inner)
    except (Unreadable, IndexError):
        contents = None
    if contents is None or not inner.is_empty():
        contents = rest("data")(Input(data))
    part.parts.append(contents)
    return part


CONTENTS = {
    0: custom, 1: listed("type", TYPE), 2: listed("import", IMPORT), 3: listed("index", INDEX), 4: listed("table", TABLE),
    5: listed("limits", LIMITS), 6: listed("global", GLOBAL), 7: listed("export", EXPORT), 8: INDEX, 9: listed("element segment", ELEMENT),
    10: listed("body", BODY), 11: listed("data segment", DATA), 12: INDEX, 13: listed("tag", TAG),
}  # fmt: skip


def section(source):
    """Reads a section. Its contents are a part of bytes if they are not in the grammar."""
    number = source.data[source.at]
    return sequence("section", BYTE, sized("contents", CONTENTS.get(number, rest("data"))))(source)


MODULE = sequence("module", fixed("preamble", len(PREAMBLE)), remaining("section", section))


def read_module(wasm):
    """Returns the tree of a module. Raises `Unreadable` if it is not one of sections."""
    return MODULE(Input(wasm))
