"""Shapes of the parts of a module outside code: for each a function that returns a module of about `n` items. Its docstring says what they are."""

import random

from speed.encode import counted_i32, custom, listed, section, sized, string, unsigned

from growth.parts import (
    ADD, ARRAY, BLOCK, CONST, DATA_NAMES, DROP, ELEMENT_NAMES, END, FIELD, FIELD_NAMES, FUNCREF, FUNCTION_NAMES, GLOBAL_NAMES, I32, LABEL_NAMES,
    LOCAL_NAMES, MEMORY_NAMES, MODULE_NAME, PREAMBLE, REC, SUB, TABLE_NAMES, TAG_NAMES, TYPE_NAMES, UNREACHABLE, body, branch, call, func_type,
    equal_functions, hint_section, imported, indexed, inner_maps, local_get, module, name_map, name_section, new_fixed, numbered, one_body, reference,
    struct_type,
)
from growth.registry import Shapes

MODULE_SHAPES = Shapes()
shape = MODULE_SHAPES.shape
MOST_FUNCTIONS = 1_000_000  # the printer's limit for a module
MOST_HINTS = 100_000  # for one function; the printer's limit is 131,071


# types


@shape()
def types(n):
    """function types"""
    return module(types=[func_type(1, 1)] * n)


@shape()
def types_in_one_group(n):
    """structure types in one recursion group"""
    return module(types=[REC + listed([struct_type([FIELD])] * n)])


@shape()
def type_groups(n):
    """structure types in recursion groups of two, whose fields refer to one another"""
    pairs = [(struct_type([reference(i + 1) + b"\0"]), struct_type([reference(i) + b"\0"])) for i in range(0, n, 2)]
    return module(types=[REC + listed(pair) for pair in pairs])


@shape()
def subtypes(n):
    """structure types with a supertype"""
    return module(types=[SUB + listed([]) + struct_type([])] + [SUB + listed([b"\0"]) + struct_type([])] * (n - 1))


@shape(valid=False)
def supertypes(n):
    """supertypes of one type"""
    return module(types=[SUB + listed([b"\0"] * n) + struct_type([])])


@shape()
def parameters(n):
    """parameters of one function, and uses of the last"""
    return module(types=[func_type(n)], functions=[b"\0"], bodies=[body((local_get(n - 1) + DROP) * n)])


@shape()
def results(n):
    """results of one function"""
    return module(types=[func_type(0, n)], functions=[b"\0"], bodies=[body(UNREACHABLE)])


@shape()
def struct_fields(n):
    """fields of one structure type, and uses of the last"""
    return one_body((b"\xd0\0" + indexed(b"\xfb\x02", 0, n - 1) + DROP) * n, types=[struct_type([FIELD] * n)])


@shape()
def named_fields(n):
    """fields with names of one structure type, and uses of the last"""
    names = name_section((FIELD_NAMES, inner_maps([(0, numbered(n, "field"))])))
    return one_body((b"\xd0\0" + indexed(b"\xfb\x02", 0, n - 1) + DROP) * n, types=[struct_type([FIELD] * n)], customs=names)


# index spaces


@shape(most=MOST_FUNCTIONS)
def functions_of_last_type(n):
    """types, and functions of the last type"""
    return module(types=[func_type()] * n, functions=[unsigned(n - 1)] * n, bodies=[body(b"")] * n)


@shape(most=MOST_FUNCTIONS)
def function_imports(n):
    """imported functions, and as many functions that call the last"""
    imports = [imported(f"f{i}", b"\0\0") for i in range(n)]
    return module(types=[func_type()], imports=imports, functions=[b"\0"] * n, bodies=[body(call(n - 1))] * n)


@shape()
def imports_of_all_kinds(n):
    """imported functions, tables, memories, globals and tags in turn"""
    items = (b"\0\0", b"\1\x70\0\1", b"\2\0\1", b"\3\x7f\0", b"\4\0\0")
    # a validator accepts 100 tables and 100 memories
    return module(types=[func_type()], imports=[imported(f"i{i}", items[i % 5 if i < 400 else i % 2 * 3]) for i in range(n)])


@shape()
def imported_tags(n):
    """imported tags, and operators that throw the last"""
    return one_body(indexed(b"\x08", n - 1) * n, types=[func_type()], imports=[imported("t", b"\4\0\0")] * n)


@shape()
def exports(n):
    """exports of a function"""
    return equal_functions(1, exports=[string(f"e{i}") + b"\0\0" for i in range(n)])


@shape()
def globals_used(n):
    """globals with an initialiser, and uses of the last"""
    return one_body((indexed(b"\x23", n - 1) + DROP) * n, globals=[I32 + b"\0" + counted_i32(1)] * n)


@shape(valid=False)
def tables_used(n):
    """tables, and uses of the last"""
    return one_body((indexed(b"\xfc\x10", n - 1) + DROP) * n, tables=[FUNCREF + b"\0\1"] * n)


@shape(valid=False)
def table_initialisers(n):
    """tables with an initialiser"""
    return module(tables=[b"\x40\0" + FUNCREF + b"\0\1\xd0\x70" + END] * n)


@shape(valid=False)
def memories_used(n):
    """memories, and loads from the last"""
    return one_body((CONST + indexed(b"\x28\x42", n - 1, 16) + DROP) * n, memories=[b"\0\1"] * n)


@shape()
def tags_used(n):
    """tags, and operators that throw the last"""
    return one_body(indexed(b"\x08", n - 1) * n, types=[func_type()], tags=[b"\0\0"] * n)


@shape(most=MOST_FUNCTIONS)
def index_spaces(n):
    """items of all kinds, and uses of the last of each"""
    return all_kinds(n // 8)


@shape(most=MOST_FUNCTIONS)
def named_index_spaces(n):
    """items of all kinds with names, and uses of the last of each"""
    count = n // 8
    spaces = (FUNCTION_NAMES, TYPE_NAMES, TABLE_NAMES, MEMORY_NAMES, GLOBAL_NAMES, ELEMENT_NAMES, DATA_NAMES, TAG_NAMES)
    return all_kinds(count, customs=name_section(*((space, name_map(numbered(count, "item"))) for space in spaces)))


def all_kinds(count, **items):
    """Returns a module with items of all kinds. Each function uses the last item of each kind."""
    last = count - 1
    loaded_global = CONST + indexed(b"\x28\x42", last, 0) + indexed(b"\x24", last)
    segments = indexed(b"\xfc\x0d", last) + indexed(b"\xfc\x09", last)
    code = loaded_global + call(last) + segments + indexed(b"\xfc\x10", last) + indexed(b"\x11", last, last) + indexed(b"\x08", last)
    return module(
        types=[func_type()] * count, functions=[b"\0"] * count, tables=[FUNCREF + b"\0\1"] * count, memories=[b"\0\1"] * count, tags=[b"\0\0"] * count,
        globals=[I32 + b"\1" + counted_i32(1)] * count, elements=[b"\1\0" + listed([b"\0"])] * count, before_code=section(12, unsigned(count)),
        bodies=[body(code)] * count, data=[b"\1" + sized(b"x")] * count, **items,
    )


# elements and data


@shape()
def element_functions(n):
    """functions in one element segment"""
    return equal_functions(1, elements=[b"\1\0" + listed([b"\0"] * n)])


@shape()
def element_expressions(n):
    """expressions in one element segment"""
    return equal_functions(1, elements=[b"\5" + FUNCREF + listed([b"\xd2\0" + END] * n)])


@shape()
def element_segments(n):
    """active element segments"""
    return equal_functions(1, tables=[FUNCREF + b"\0\1"], elements=[b"\0" + counted_i32(0) + listed([b"\0"])] * n)


@shape()
def element_segments_used(n):
    """passive element segments, and uses of the last"""
    code = (CONST * 3 + indexed(b"\xfc\x0c", n - 1, 0) + indexed(b"\xfc\x0d", n - 1)) * n
    return one_body(code, tables=[FUNCREF + b"\0\1"], elements=[b"\1\0" + listed([b"\0"])] * n)


@shape()
def data_segments(n):
    """active data segments"""
    return module(memories=[b"\0\1"], data=[b"\0" + counted_i32(0) + sized(b"x")] * n)


@shape()
def data_segments_used(n):
    """passive data segments, and uses of the last"""
    code = (CONST * 3 + indexed(b"\xfc\x08", n - 1, 0) + indexed(b"\xfc\x09", n - 1)) * n
    return one_body(code, memories=[b"\0\1"], before_code=section(12, unsigned(n)), data=[b"\1" + sized(b"x")] * n)


@shape()
def data_bytes(n):
    """bytes of all values in one data segment"""
    return module(data=[b"\1" + sized(bytes(range(256)) * (n // 256) + bytes(n % 256))])


@shape()
def data_text(n):
    """characters of text in one data segment, one in sixteen escaped"""
    return module(data=[b"\1" + sized(b"fifteen letters\n" * (n // 16))])


# lists of operators in initialisers and offsets


@shape()
def global_left_operands(n):
    """additions in a global's initialiser, each the left operand of the next"""
    return module(globals=[I32 + b"\0" + CONST + (CONST + ADD) * n + END])


@shape()
def global_right_operands(n):
    """additions in a global's initialiser, each the right operand of the next"""
    return module(globals=[I32 + b"\0" + CONST * (n + 1) + ADD * n + END])


@shape()
def element_offset(n):
    """additions in the offset of an element segment"""
    return equal_functions(1, tables=[FUNCREF + b"\0\1"], elements=[b"\0" + CONST + (CONST + ADD) * n + END + listed([b"\0"])])


@shape()
def data_offset(n):
    """additions in the offset of a data segment"""
    return module(memories=[b"\0\1"], data=[b"\0" + CONST * (n + 1) + ADD * n + END + sized(b"x")])


@shape()
def table_structures(n):
    """structures in a table's initialiser, each a field of the next"""
    nested = b"\xd0\0" + indexed(b"\xfb\0", 0) * n
    return module(types=[struct_type([reference(0) + b"\0"])], tables=[b"\x40\0" + reference(0) + b"\0\1" + nested + END])


@shape()
def element_structures(n):
    """structures in the items of an element segment, in threes"""
    item = b"\xd0\0" + indexed(b"\xfb\0", 0) * 3 + END
    return module(types=[struct_type([reference(0) + b"\0"])], elements=[b"\5" + reference(0) + listed([item] * (n // 3))])


@shape()
def global_array(n):
    """elements of an array in a global's initialiser"""
    return module(types=[ARRAY + FIELD], globals=[b"\x64\0\0" + CONST * n + new_fixed(unsigned(n)) + END])


@shape(valid=False)
def global_blocks(n):
    """nested blocks in a global's initialiser"""
    return module(globals=[I32 + b"\0" + BLOCK * n + branch(n - 1) + END * n + CONST + END])


# custom sections


@shape()
def custom_sections(n):
    """custom sections"""
    return module(customs=b"".join(custom(f"c{i}", b"xy") for i in range(n)))


@shape()
def custom_sections_everywhere(n):
    """custom sections, a twelfth of them after each kind of section"""
    customs = custom("c", b"xy") * (n // 12)
    kinds = (
        (1, listed([func_type()])), (2, listed([imported("f", b"\0\0")])), (3, listed([b"\0"])), (4, listed([FUNCREF + b"\0\1"])), (5, listed([b"\0\1"])),
        (13, listed([b"\0\0"])), (6, listed([I32 + b"\0" + counted_i32(0)])), (7, listed([string("f") + b"\0\0"])), (8, b"\0"),
        (9, listed([b"\1\0" + listed([b"\0"])])), (10, listed([body(b"")])), (11, listed([b"\1" + sized(b"x")])),
    )
    return PREAMBLE + b"".join(section(number, data) + customs for number, data in kinds)


@shape()
def custom_bytes(n):
    """bytes of all values in one custom section"""
    return module(customs=custom("c", bytes(range(256)) * (n // 256)))


@shape()
def producers_values(n):
    """values of a field of a producers section"""
    values = listed([string(f"tool{i}") + string("1.0") for i in range(n)])
    return module(customs=custom("producers", listed([string("language") + values])))


@shape()
def producers_fields(n):
    """fields of a producers section"""
    return module(customs=custom("producers", listed([string(f"field{i}") + listed([string("tool") + string("1.0")]) for i in range(n)])))


@shape()
def producers_sections(n):
    """producers sections"""
    return module(customs=custom("producers", listed([string("language") + listed([string("C") + string("99")])])) * n)


@shape()
def dylink_entries(n):
    """needed libraries, exports and imports of a dylink.0 section"""
    each = range(n // 3)
    parts = (
        (2, listed([string(f"lib{i}.so") for i in each])), (3, listed([string(f"e{i}") + unsigned(i % 1024) for i in each])),
        (4, listed([string("env") + string(f"i{i}") + unsigned(i % 1024) for i in each])),
    )
    return module(customs=custom("dylink.0", b"".join(section(number, data) for number, data in parts)))


@shape()
def dylink_subsections(n):
    """subsections of a dylink.0 section"""
    return module(customs=custom("dylink.0", section(1, b"\x10\2\1\0") * n))


@shape()
def dylink_unreadable(n):
    """dylink.0 sections that can't be read"""
    return module(customs=custom("dylink.0", b"\1\5\x10") * n)


# names


def with_names(n, names):
    """Returns a module with functions that each call the last, and with names of functions."""
    return equal_functions(n, call(n - 1), customs=name_section((FUNCTION_NAMES, name_map(names))))


@shape(most=MOST_FUNCTIONS)
def names_ascending(n):
    """functions with names"""
    return with_names(n, numbered(n, "f"))


@shape(most=MOST_FUNCTIONS)
def names_descending(n):
    """functions with names, the last function's name first"""
    return with_names(n, reversed(numbered(n, "f")))


@shape(most=MOST_FUNCTIONS)
def names_shuffled(n):
    """functions with names in no order"""
    names = numbered(n, "f")
    random.Random(1).shuffle(names)
    return with_names(n, names)


@shape(most=MOST_FUNCTIONS)
def names_equal(n):
    """functions with the same name"""
    return with_names(n, [(i, "f") for i in range(n)])


@shape(most=MOST_FUNCTIONS)
def names_escaped(n):
    """functions with names that have to be quoted and escaped"""
    return with_names(n, [(i, f'"{i}"\n\\é') for i in range(n)])


@shape(most=MOST_FUNCTIONS)
def names_empty(n):
    """functions with empty names"""
    return with_names(n, [(i, "") for i in range(n)])


@shape(most=MOST_FUNCTIONS)
def names_given_twice(n):
    """functions with names, each given twice"""
    return with_names(n, numbered(n, "f") * 2)


@shape()
def names_long(n):
    """bytes of names of 1,000 bytes that differ at their end, one for each function"""
    start = "core::iter::adapters::map::Map<alloc::vec::IntoIter<T>>::" * 18
    names = [(i, start[: 1000 - len(str(i))] + str(i)) for i in range(max(1, n // 1000))]
    return with_names(len(names), names)


@shape()
def names_of_nothing(n):
    """names of functions that do not exist"""
    return module(customs=name_section((FUNCTION_NAMES, name_map(numbered(n, "f")))))


@shape(most=MOST_FUNCTIONS)
def name_sections(n):
    """name sections with one name each, the last function's name first"""
    return equal_functions(n, customs=b"".join(name_section((FUNCTION_NAMES, name_map([name]))) for name in reversed(numbered(n, "f"))))


@shape(most=MOST_FUNCTIONS)
def name_sections_in_turn(n):
    """name sections that name a type or a function in turn"""
    pairs = ((TYPE_NAMES, FUNCTION_NAMES)[i % 2] for i in range(n))
    customs = b"".join(name_section((space, name_map([(i // 2, f"n{i}")]))) for i, space in enumerate(pairs))
    count = n // 2
    return module(types=[func_type()] * count, functions=[b"\0"] * count, bodies=[body(call(count - 1))] * count, customs=customs)


@shape()
def module_names(n):
    """names of the module, of which the last counts"""
    return module(customs=name_section((MODULE_NAME, string("module"))) * n)


@shape(most=MOST_FUNCTIONS)
def local_names_of_functions(n):
    """functions with one parameter, which has a name"""
    names = name_section((LOCAL_NAMES, inner_maps([(i, [(0, "x")]) for i in range(n)])))
    return module(types=[func_type(1)], functions=[b"\0"] * n, bodies=[body(local_get(0) + DROP)] * n, customs=names)


@shape()
def local_names(n):
    """locals with names, 1,000 in each function, and a use of each"""
    count = -(-n // 1000)
    code = b"".join(local_get(i) + DROP for i in range(1000))
    names = name_section((LOCAL_NAMES, inner_maps([(i, numbered(1000, "x")) for i in range(count)])))
    return module(types=[func_type()], functions=[b"\0"] * count, bodies=[body(code, [unsigned(1000) + I32])] * count, customs=names)


@shape()
def local_names_far_apart(n):
    """names of locals whose functions are far apart, given from the last on"""
    maps = [(1000 * i, [(1000 * i, f"x{i}")]) for i in reversed(range(n))]
    return equal_functions(1, customs=name_section((LOCAL_NAMES, inner_maps(maps))))


@shape()
def label_names(n):
    """nested blocks whose labels have different names, and a branch to each"""
    return labels(n, numbered(n, "l"))


@shape()
def label_names_equal(n):
    """nested blocks whose labels have the same name, and a branch to each"""
    return labels(n, [(i, "l") for i in range(n)])


def labels(n, names):
    """Returns a module with nested blocks whose labels have names, and a branch to each from the innermost."""
    code = BLOCK * n + b"".join(map(branch, range(n))) + END * n
    return one_body(code, customs=name_section((LABEL_NAMES, inner_maps([(0, names)]))))


@shape()
def label_names_in_a_row(n):
    """blocks one after the other whose labels have names, each with a branch to it"""
    return one_body((BLOCK + branch(0) + END) * n, customs=name_section((LABEL_NAMES, inner_maps([(0, numbered(n, "l"))]))))


# branch hints


def hinted_code(count):
    """Returns `count` conditional branches, and their byte offsets in the body."""
    return (CONST + b"\x0d\0") * count, [1 + 4 * i + len(CONST) for i in range(count)]


@shape()
def hints(n):
    """branch hints, at most 100,000 in each function"""
    count = -(-n // MOST_HINTS)
    code, offsets = hinted_code(n // count)
    return equal_functions(count, code, before_code=hint_section([(i, offsets) for i in range(count)]))


@shape(most=MOST_FUNCTIONS)
def hint_functions(n):
    """functions with one branch hint each"""
    code, offsets = hinted_code(1)
    return equal_functions(n, code, before_code=hint_section([(i, offsets) for i in range(n)]))


@shape()
def hint_sections(n):
    """sections of branch hints, of which the last counts"""
    code, offsets = hinted_code(1)
    return equal_functions(1, code, before_code=hint_section([(0, offsets)]) * n)


@shape()
def hints_at_no_operator(n):
    """branch hints, the first of which is at no operator"""
    count = -(-n // MOST_HINTS)
    code, offsets = hinted_code(n // count)
    return equal_functions(count, code, before_code=hint_section([(i, [2, *offsets]) for i in range(count)]))
