"""Judges cases that disagree: whose fault it is, or which documented choice or version of the standard."""

import re

from scope import heads
from texts import fault, shown
from wasm import sections
from wast import Unreadable, trees

NOT_JUDGED = "**not judged**"
OLDER = "an older version of the standard: in version 3.0 "
# Messages of suites for malformed modules that the definitions accept.
MESSAGES = (
    ("too many locals", "documented: the sum of local counts is not bounded by the grammar; such a module is refused as `TooManyLocals`"),
    ("data count section required", "documented: a data count may be absent"),
    ("zero byte expected", OLDER + "there is the index of a memory or a table"),
    ("zero flag expected", OLDER + "there is the index of a memory or a table"),
    ("integer too large", OLDER + "limits and offsets have 64 bits"),
    ("integer representation too long", OLDER + "limits and offsets have 64 bits, and there is the index of a memory"),
    ("i32 constant out of range", OLDER + "limits have 64 bits, in texts too"),
    ("malformed memop flags", OLDER + "bit 6 of the first number of a memory operand says that the index of a memory follows"),
)
# Proposals whose modules the definitions do not cover, by a pattern in the text or in the path.
PROPOSALS = (
    (re.compile(rb"\b(no)?cont\b|\b(suspend|resume|switch)\b"), "stack switching"),
    (re.compile(rb"compact-import"), "compact imports"),
    (re.compile(rb"\(shared\b|_shared\b|\.atomic\.(get|set|rmw)|acqrel"), "shared-everything threads"),
    (re.compile(rb"\((descriptor|describes|exact)\b|_desc\b"), "custom descriptors"),
    (re.compile(rb"\bstring(ref|view)?\b|\bstring\."), "string references"),
)
# The same for modules that `wasm-tools print` refuses, by the message of `wasm-tools validate`.
PROPOSALS_BY_MESSAGE = (("for external kind", "compact imports"), ("shared tables", "shared-everything threads"))
FUNCTION_SECTION, CUSTOM_SECTION = 3, 0
EMPTY_ELSE = re.compile(rb"\belse\s+end\b")
CODE_ANNOTATION = re.compile(rb"\(\(@metadata\.code\.[^()]*\)\)")  # in parentheses of its own


def fields_of(data):
    """Returns the fields of a module, as `wasm-tools print` writes them."""
    try:
        tops = trees(shown(data))
    except Unreadable:
        return []
    return [it for it in tops[0][0][1:] if isinstance(it, list)] if tops and isinstance(tops[0][0], list) else []


def has_table_init(fields):
    """Reports whether a table has an initialiser: items after its type."""
    for field in heads(fields, b"table"):
        at = next((at for at, it in enumerate(field) if it in (b"funcref", b"externref") or (isinstance(it, list) and it[:1] == [b"ref"])), len(field))
        if len(field) > at + 1:
            return True
    return False


def has_long_expression(fields):
    """Reports whether a segment has an offset or an item of no operator or of several: only these have the word before them."""
    return any(heads(field, b"offset") or heads(field, b"item") for field in heads(fields, b"elem") + heads(fields, b"data"))


def has_functions_as_items(fields):
    """Reports whether an element segment has expressions of the type `(ref func)`."""
    return any([b"ref", b"func"] in field for field in heads(fields, b"elem"))


def has_custom_after_functions(data):
    """Reports whether a custom section directly follows the function section."""
    kinds = [kind for kind, _ in sections(data)]
    return (FUNCTION_SECTION, CUSTOM_SECTION) in zip(kinds, kinds[1:])


def wasm2wat_judgement(case):
    """Returns the judgement of a text that wasm2wat printed, or nothing."""
    fields = fields_of(case.data)
    if has_table_init(fields):
        return "fault of wasm2wat: it leaves out the initialiser of a table"
    if has_long_expression(fields):
        return "fault of wasm2wat: it writes an offset or an item of no operator, or of several, without `(offset ..)` or `(item ..)`"
    if CODE_ANNOTATION.search(case.text):
        return "fault of wasm2wat: it writes the annotation of an operator as a group of its own"
    if EMPTY_ELSE.search(shown(case.data)):
        return "documented: an `else` without operators has another meaning here than none; wasm2wat leaves it out"
    if has_functions_as_items(fields):
        return "documented: a list of functions has another meaning here than expressions of the type `(ref func)`; wasm2wat writes a list"
    return ""


def text_judgement(case):
    """Returns the judgement of a text that does not read as its module."""
    if case.label.maker.startswith("wasm2wat") and (found := wasm2wat_judgement(case)):
        return found
    if case.label.maker.startswith("wasm-tools print") and b"(after type)" in case.text and has_custom_after_functions(case.data):
        return "fault of wasm-tools print: it writes `(after type)` for a custom section after the function section"
    message = fault(case.data)
    if case.held == "unread" and "unknown type" in message:
        return "documented: the module uses a type that is not declared, and such a text is not read"
    return f"{NOT_JUDGED} ({message or 'valid'})"


def module_judgement(case):
    """Returns the judgement of a module that does not parse."""
    text = shown(case.data)
    message = fault(case.data)
    proposal = next((name for pattern, name in PROPOSALS if pattern.search(text) or pattern.search(case.label.path.encode())), None)
    proposal = proposal or next((name for part, name in PROPOSALS_BY_MESSAGE if part in message), None)
    return f"out of scope: {proposal}, a proposal" if proposal else f"{NOT_JUDGED} ({message or 'valid'})"


def judgement(case):
    """Returns the judgement of a case that disagrees."""
    if case.label.kind.startswith("malformed"):
        return next((why for message, why in MESSAGES if message in case.label.message), f"{NOT_JUDGED} ({case.label.message})")
    return text_judgement(case) if case.label.kind == "text" else module_judgement(case)
