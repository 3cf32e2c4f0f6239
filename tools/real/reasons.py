"""Maps the messages of assemblers to the known reasons why they refuse a text or make a different module of it."""

import re

PLACES = re.compile(r"TEXT:\d+:\d+: |TEXT:|\d+:\d+: |^[0-9a-f]{7}: ")
NUMBERS = re.compile(r"0x[0-9a-f]+|\b\d+\b")
IDENTIFIERS = re.compile(r"\$#?[A-Za-z_.]+\d*")
GC = "does not support garbage collection (groups of types, structures, arrays, casts)"
FOLDED_ONLY = "bug: it requires a folded group as the initialiser of a table, where the standard allows any expression"

DECLARATIVE = "bug: it drops a declarative element segment, so others get its index, or `table.init` can't find it"
INVALID = "the module is invalid, and the assembler checks that"
UNDECLARED = "the module is invalid: it uses an index that is not declared, and the text has an identifier for it"
UNEXPLAINED = "not explained"
UNKNOWN_IDENTIFIER = re.compile(r"failed to find name|undefined .* (variable|name)|\$\S* does not exist|unknown type identifier")

# Assembler, pattern of its message, and reason. The first row that matches applies.
REASONS = (
    ("wat2wasm", r'token "?rec"?,|expected (valid )?field type|"(i8|i16)", expected|"(struct|array|sub)"|"no(ne|func|extern|exn)"|null(func|extern|exn)?ref', GC),
    ("wat2wasm", r"Assertion `!IsReferenceWithIndex", GC),
    ("wat2wasm", r"token [a-z0-9]+\.[a-z_0-9]+, expected \)", FOLDED_ONLY),
    ("wat2wasm", r'"exn", expected a numeric', "does not support `(ref exn)`"),
    ("wat2wasm", r'token "first", expected type', "does not support `(before first)`, a custom section before all others"),
    ("wasm-as", r"expected end of table declaration", FOLDED_ONLY),
    ("wasm-as", r"elem .* does not exist", DECLARATIVE),
    ("wasm-as", r"visitMemoryCopy", "bug: an assertion fails for a copy between a 32-bit and a 64-bit memory"),
)

# Assembler, pattern of the first lines of text that differ, and reason, if the text of `wasm-tools print` has the same result. The first row
# that matches applies.
DIFFERENCES = (
    ("wat2wasm", r"^\(elem .*\(table", "encodes an element segment that names table 0 in the form without a table"),
    ("wat2wasm", r"\(pagesize 0x10000\)", "leaves out the page size 65,536, which is the default"),
    ("wat2wasm", r"^else / ", "leaves out an `else` without instructions"),
    ("wat2wasm", r" align=\d{10}", "bug: it reads an alignment of 2^32 or more as 1; the module is invalid"),
    ("wat2wasm", r"^\(elem .*\(ref func\)", "encodes the elements of a segment as indices of functions, where the text has expressions"),
    ("wat2wasm", r"4294967295| / $", UNDECLARED),
    ("wasm-as", r"^\(elem .*declare|^(table\.init|elem\.drop|array\.(new|init)_elem) ", DECLARATIVE),
    ("wasm-as", r"", "generates other code: blocks, locals of its own, other dead code, types in another order"),
)

# Assembler (any if empty), pattern of a note on names or custom sections, and reason. The first row that matches applies.
NOTES = (
    ("", r"branch_hint", "in folded text it attaches a hint before a group to the group's innermost first operand"),
    ("wasm-tools", r"kind (field|local)", "writes no names of fields of types in an explicit `(rec ..)`, or of imported functions' parameters"),
    ("wasm-tools", r"another order", "writes `producers` after all other custom sections"),
    ("wat2wasm", r"another place", "writes all custom sections after the other sections"),
    ("wat2wasm", r"kind (label|local|global|type|field|func)", "writes the identifiers themselves as names, ignores `(@name ..)`, and writes no names of labels, fields, structures or arrays"),
    ("wat2wasm", r"section (producers|dylink)", "ignores the annotations of `producers` and `dylink.0`"),
)


def general(message):
    """Returns a message without places, numbers and identifiers, cut to 120 characters, so that similar messages are equal."""
    return IDENTIFIERS.sub("$x", NUMBERS.sub("N", PLACES.sub("", message)))[:120]


def note_reason(reader, note):
    """Returns the known reason for a note on names or custom sections, or `not explained`."""
    return next((why for who, pattern, why in NOTES if who in ("", reader) and re.search(pattern, note)), UNEXPLAINED)


def reason(reader, verdict, judged):
    """Returns the known reason for a verdict, or `not explained`. `judged` is what `wasm-tools` says of the module."""
    is_invalid = judged not in ("", "valid")
    if is_invalid and verdict.word == "refused" and UNKNOWN_IDENTIFIER.search(verdict.why):
        return UNDECLARED
    for who, pattern, why in {"refused": REASONS, "alike": DIFFERENCES}.get(verdict.word, ()):
        if who == reader and re.search(pattern, verdict.why):
            return why
    return INVALID if is_invalid and verdict.word == "refused" else UNEXPLAINED
