"""Parts from which the shapes are assembled: types, operators, bodies, names, and whole modules."""

from speed.encode import custom, listed, section, signed, sized, string, unsigned

PREAMBLE = b"\0asm\1\0\0\0"
# the sections of lists in the order of the standard, with their ids
SECTIONS = (
    ("types", 1), ("imports", 2), ("functions", 3), ("tables", 4), ("memories", 5), ("tags", 13), ("globals", 6), ("exports", 7), ("elements", 9),
    ("bodies", 10), ("data", 11),
)

I32, FUNCREF = b"\x7f", b"\x70"
FUNC, STRUCT, ARRAY, SUB, REC = b"\x60", b"\x5f", b"\x5e", b"\x50", b"\x4e"
FIELD = I32 + b"\x01"
NO_RESULT = b"\x40"

UNREACHABLE, NOP, ELSE, END, RETURN, DROP = b"\x00", b"\x01", b"\x05", b"\x0b", b"\x0f", b"\x1a"
BLOCK, LOOP, IF, TRY = (opcode + NO_RESULT for opcode in (b"\x02", b"\x03", b"\x04", b"\x06"))
CONST, EQZ, ADD = b"\x41\0", b"\x45", b"\x6a"
GREATEST = unsigned(2**32 - 1)

# the ids of the subsections of a name section
MODULE_NAME, FUNCTION_NAMES, LOCAL_NAMES, LABEL_NAMES, TYPE_NAMES, TABLE_NAMES = range(6)
MEMORY_NAMES, GLOBAL_NAMES, ELEMENT_NAMES, DATA_NAMES, FIELD_NAMES, TAG_NAMES = range(6, 12)


def func_type(params=0, results=0):
    """Returns a function type with these numbers of i32."""
    return FUNC + unsigned(params) + I32 * params + unsigned(results) + I32 * results


def struct_type(fields):
    """Returns a structure type with these field types."""
    return STRUCT + listed(fields)


def reference(number):
    """Returns the nullable reference type to a type."""
    return b"\x63" + signed(number)


def indexed(opcode, *indices):
    """Returns an operator with indices."""
    return opcode + b"".join(unsigned(index) for index in indices)


def branch(label):
    return indexed(b"\x0c", label)


def call(function):
    return indexed(b"\x10", function)


def local_get(index):
    return indexed(b"\x20", index)


def new_fixed(count):
    """Returns `array.new_fixed` of type 0 with the encoded number of its operands."""
    return b"\xfb\x08\0" + count


def body(code, locals_=()):
    """Returns a body with its locals and its last `end`."""
    return sized(listed(locals_) + code + END)


def imported(name, item):
    """Returns the import of an item, which is its kind and its type."""
    return string("m") + string(name) + item


def module(before_code=b"", customs=b"", **items):
    """Returns a module with the sections of these items, sections before the code section, and custom sections at the end."""
    parts = [PREAMBLE]
    for name, number in SECTIONS:
        if name == "bodies":
            parts.append(before_code)
        if name in items:
            parts.append(section(number, listed(items[name])))
    return b"".join([*parts, customs])


def equal_functions(count, code=b"", **items):
    """Returns a module with equal functions without parameters and results."""
    return module(types=[func_type()], functions=[b"\0"] * count, bodies=[body(code)] * count, **items)


def one_body(code, callees=(), types=(), locals_=(), **items):
    """Returns a module with one function without parameters and results. The callees are the types of imported functions, numbered from 0.

    The type of the function comes after `types` and the callees.
    """
    first = len(types)
    if callees:
        items["imports"] = [imported(f"f{i}", indexed(b"\0", first + i)) for i in range(len(callees))]
    own = unsigned(first + len(callees))
    return module(types=[*types, *callees, func_type()], functions=[own], bodies=[body(code, locals_)], **items)


def name_map(names):
    """Returns the names of items from pairs of an index and a name."""
    return listed([unsigned(index) + string(name) for index, name in names])


def numbered(count, word):
    """Returns a name for each index below `count`."""
    return [(index, f"{word}{index}") for index in range(count)]


def inner_maps(maps):
    """Returns the names of the locals or labels of functions, or of the fields of types, from pairs of an index and names."""
    return listed([unsigned(outer) + name_map(names) for outer, names in maps])


def name_section(*subsections):
    """Returns a name section from pairs of an id and the contents."""
    return custom("name", b"".join(section(number, data) for number, data in subsections))


def hint_section(functions_):
    """Returns a section of branch hints from pairs of a function and byte offsets in its body."""
    entries = [unsigned(function) + listed([unsigned(offset) + b"\1\1" for offset in offsets]) for function, offsets in functions_]
    return custom("metadata.code.branch_hint", listed(entries))
