"""Finds the forms of a text that `read` does not cover. docs/DECISIONS.md lists them under "Abbreviations" and "Floats"."""

import re

from wast import Unreadable, is_identifier, trees

DECIMAL = re.compile(rb"[-+]?[0-9](?!x)")
INDEX = re.compile(rb"[0-9$]")
FLOATS, FLOAT_LANES = (b"f32.const", b"f64.const"), (b"f32x4", b"f64x2")
BLOCKS = (b"block", b"loop", b"if", b"try", b"try_table")
TABLE_WORDS = (b"table.get", b"table.set", b"table.size", b"table.grow", b"table.fill")
CALLS = (b"call_indirect", b"return_call_indirect")
SHORT_TYPES = (b"funcref", b"externref", b"anyref", b"eqref", b"i31ref", b"structref", b"arrayref", b"exnref", b"nullref", b"nullfuncref", b"nullexternref", b"nullexnref")
TYPE_USE, INLINE_EXPORT, INLINE_IMPORT = "a type use without an index", "an inline export", "an inline import"
INLINE_SEGMENT, NO_FUNC = "a segment inside a table or memory", "an element segment without `func` or a type"
END_LABEL, BLOCK_TYPE, NO_TABLE = "an identifier after `end` or `else`", "a block type of several types without an index", "a table operator without an index"
DECIMAL_FLOAT, FLOAT_VECTOR, FOLDED_TRY = "a decimal float", "a float vector", "folded `try`"
NO_PLACE, BEFORE, NO_MODULE, ROUNDED = "`(@custom ..)` without a place", "`(@custom ..)` before or after another section", "fields without `(module ..)`", "a hexadecimal float that is rounded"


def heads(items, word):
    """Returns the groups among these items that start with this word."""
    return [it for it in items if isinstance(it, list) and it[:1] == [word]]


def after_identifier(items):
    """Returns the items after a first word and an optional identifier."""
    return items[2:] if len(items) > 1 and is_identifier(items[1]) else items[1:]


def type_use_reasons(rest):
    """Returns the reason if a type use at the front of these items has no index."""
    return set() if rest and isinstance(rest[0], list) and rest[0][:1] == [b"type"] else {TYPE_USE}


def block_reasons(items):
    """Returns the reasons that the block type at the front of these items has: several types, or a parameter, and no index."""
    rest = items[1:] if items and is_identifier(items[0]) else items
    groups = []
    for it in rest:
        if not isinstance(it, list) or it[:1] not in ([b"type"], [b"param"], [b"result"]):
            break
        groups.append(it)
    if not groups or groups[0][0] == b"type" or (len(groups) == 1 and groups[0][0] == b"result" and len(groups[0]) == 2):
        return set()
    return {BLOCK_TYPE}


def is_index(item):
    return isinstance(item, bytes) and bool(INDEX.match(item))


def operator_reasons(items):
    """Returns the reasons that a list of operators has, flat or folded."""
    found = set()
    for at, it in enumerate(items):
        following = items[at + 1:at + 2]
        if isinstance(it, list):
            found |= {FOLDED_TRY} if it[:1] == [b"try"] and heads(it, b"do") else set()
            found |= operator_reasons(it)
        elif it in FLOATS and following and isinstance(following[0], bytes) and DECIMAL.match(following[0]):
            found.add(DECIMAL_FLOAT)
        elif it in FLOAT_LANES:
            found.add(FLOAT_VECTOR)
        elif it in BLOCKS:
            found |= block_reasons(items[at + 1:])
        elif it in (b"end", b"else") and following and is_identifier(following[0]):
            found.add(END_LABEL)
        elif it in TABLE_WORDS and not (following and is_index(following[0])):
            found.add(NO_TABLE)
        elif it in CALLS:
            rest = items[at + 2:] if following and is_index(following[0]) else items[at + 1:]
            found |= type_use_reasons(rest)
    return found


def element_reasons(field):
    """Returns the reason if an element segment has neither the word `func` nor a type before its items."""
    words = [it for it in field[1:] if isinstance(it, bytes) and it != b"declare"]
    words = words[1:] if words and is_identifier(field[1]) else words
    has_type = bool(heads(field, b"ref")) or any(it in SHORT_TYPES or it == b"func" for it in words)
    return set() if has_type else {NO_FUNC}


def definition_reasons(field):
    """Returns the reasons that a definition of a function, table, memory, global or tag has."""
    found, rest = set(), after_identifier(field)
    while rest and isinstance(rest[0], list) and rest[0][:1] in ([b"export"], [b"import"]):
        found.add(INLINE_EXPORT if rest[0][0] == b"export" else INLINE_IMPORT)
        rest = rest[1:]
    if field[0] in (b"func", b"tag"):
        found |= type_use_reasons(rest)
    if (field[0] == b"table" and heads(rest, b"elem")) or (field[0] == b"memory" and heads(rest, b"data")):
        found.add(INLINE_SEGMENT)
    return found


def field_reasons(field):
    """Returns the reasons that one field of a module has."""
    head = field[0]
    if head == b"import":
        item = field[-1]
        return type_use_reasons(after_identifier(item)) if isinstance(item, list) and item[0] in (b"func", b"tag") else set()
    if head == b"(@custom" or head == b"@custom":
        places = [it for it in field if isinstance(it, list)]
        return {NO_PLACE} if not places else ({BEFORE} if places[0] not in ([b"before", b"first"],) and places[0][:1] == [b"before"] or b"last" in places[0] else set())
    found = element_reasons(field) if head == b"elem" else set()
    found |= definition_reasons(field) if head in (b"func", b"table", b"memory", b"global", b"tag") else set()
    return found | (operator_reasons(field[1:]) if head in (b"func", b"table", b"global", b"elem", b"data") else set())


def scope_reasons(text):
    """Returns the forms in a text that `read` does not cover, or `None` if the text has no tree."""
    try:
        tops = [it for it, _, _ in trees(text)]
    except Unreadable:
        return None
    groups = [it for it in tops if isinstance(it, list) and it and not (isinstance(it[0], bytes) and it[0].startswith(b"@"))]
    if len(groups) != 1 or groups[0][0] != b"module":
        return {NO_MODULE}
    fields = [it for it in groups[0][1:] if isinstance(it, list) and it and isinstance(it[0], bytes)]
    return set().union(*map(field_reasons, fields))
