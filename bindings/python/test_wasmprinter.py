"""Checks every case of bindings/cases.txt, and the package itself."""

import ctypes
import doctest
import os
import pathlib
import pickle
import re
import subprocess
import sys
import tempfile
import threading
import unittest
import unittest.mock

import wasmprinter
from wasmprinter import Kind

CASES = pathlib.Path(__file__).resolve().parent.parent / "cases.txt"
EMPTY = b"\0asm\1\0\0\0"
ONE_TYPE = EMPTY + b"\1\4\1\x60\0\0"

# a function of many operators: its text has more lines than the first table has entries
NOPS = 4000
WITH_NOPS = ONE_TYPE + b"\3\2\1\0\x0a\xa5\x1f\1\xa2\x1f\0" + b"\1" * NOPS + b"\x0b"
LINES_WITH_NOPS = [
    (0, "(module\n"),
    (11, "  (type (;0;) (func))\n"),
    (24, "  (func (;0;) (type 0)\n"),
    *((place, "    nop\n") for place in range(25, 4025)),
    (4025, "  )\n"),
    (4026, ")\n"),
]

# the functions that print a module
FUNCTIONS = wasmprinter.print_bytes, wasmprinter.print_lines, wasmprinter.print_events, wasmprinter.print_ansi

# an escape sequence for a color
SEQUENCE = re.compile("\x1b\\[[0-9;]*m")

# the events of ONE_TYPE
EVENTS = [
    (Kind.LINE_AT_PLACE, 0, "("),
    (Kind.KEYWORD, None, "module"),
    (Kind.RESET, None, "\n"),
    (Kind.LINE_AT_PLACE, 11, "  ("),
    (Kind.KEYWORD, None, "type "),
    (Kind.RESET, None, ""),
    (Kind.NAME, None, "(;0;)"),
    (Kind.RESET, None, " ("),
    (Kind.KEYWORD, None, "func"),
    (Kind.RESET, None, "))\n"),
    (Kind.LINE_AT_PLACE, 14, ")\n"),
]

# a function that returns its i32 parameter, exported as `f`, and its text in colors
IDENTITY = EMPTY + b"\1\6\1\x60\1\x7f\1\x7f\3\2\1\0\7\5\1\1f\0\0\x0a\6\1\4\0\x20\0\x0b"
K, T, N, L, R = "\x1b[0m\x1b[1m\x1b[38;5;11m", "\x1b[0m\x1b[1m\x1b[38;5;10m", "\x1b[0m\x1b[35m", "\x1b[0m\x1b[31m", "\x1b[0m"
IDENTITY_IN_COLORS = f"""({K}module{R}
  ({K}type {R}{N}(;0;){R} ({K}func{R} ({K}param{R} {T}i32{R}) ({K}result{R} {T}i32{R})))
  ({K}export {R}{L}"f"{R} ({K}func {R}{N}0{R}))
  ({K}func {R}{N}(;0;){R} ({K}type {R}{N}0{R}) ({K}param{R} {T}i32{R}) ({K}result{R} {T}i32{R})
    local.get {N}0{R}
  )
)
"""

# the statuses of the errors, and the names of their details
ERRORS = {
    "Malformed": (1, "place"),
    "Component": (2, None),
    "TooManyLocals": (3, "place"),
    "TooManyFunctions": (4, "count"),
    "EmptyTableInit": (5, "place"),
    "FoldLegacy": (6, "place"),
    "FoldHint": (7, "place"),
    "DylinkSubsection": (8, "id"),
    "TooLong": (10, None),
    "OutOfMemory": (11, None),
    "UnknownOption": (13, "bits"),
}


class Case:
    """A case: the input and the expected results."""

    def __init__(self, title):
        self.title = title
        self.options = {}
        self.wasm = b""
        self.has_places = False
        self.lines = []
        self.error = None

    def read(self, line):
        key, _, words = line.partition(" ")
        if key == "set":
            self.options.update({word: True for word in words.split()})
        elif key == "indent":
            # bytes that are not UTF-8 have no str
            self.options["indent"] = bytes.fromhex(words).decode("utf-8", "surrogateescape")
        elif key == "omit":
            self.options.setdefault("omitted", []).append(words)
        elif key == "wasm":
            self.wasm += bytes.fromhex(words)
        elif key == "zeros":
            self.wasm += bytes(int(words))
        elif key == "places":
            self.has_places = True
        elif key == "error":
            name, detail, text = words.split(" ", 2)
            self.error = name, int(detail), text
        elif key != "left":
            place, text = line.split("|", 1)
            self.lines.append((int(place, 16) if place else None, text + "\n"))


def cases():
    found = []
    for line in CASES.read_text(encoding="utf-8").split("\n"):
        if line.startswith("case "):
            found.append(Case(line[5:]))
        elif line and not line.startswith("#"):
            found[-1].read(line)
    return found


class Cases(unittest.TestCase):
    def test_each_case(self):
        found = cases()
        self.assertGreater(len(found), 20)
        for case in found:
            with self.subTest(case.title):
                self.check(case)

    def check(self, case):
        if "\udcff" in case.options.get("indent", ""):
            with self.assertRaises(UnicodeEncodeError):
                wasmprinter.print_bytes(case.wasm, **case.options)
        elif case.error is None:
            self.assertEqual(wasmprinter.print_bytes(case.wasm, **case.options), "".join(text for _, text in case.lines))
            self.check_limits(case)
            lines = list(wasmprinter.print_lines(case.wasm, **case.options))
            self.assertEqual([line.text for line in lines], [text for _, text in case.lines])
            if case.has_places:
                self.assertEqual([line.place for line in lines], [place for place, _ in case.lines])
            self.check_events(case, lines)
        else:
            name, detail, text = case.error
            for function in FUNCTIONS:
                with self.assertRaises(wasmprinter.Error) as raised:
                    function(case.wasm, **case.options)
                self.assertIs(type(raised.exception), getattr(wasmprinter, name))
                check_error(self, raised.exception, name, detail)
                self.assertEqual(str(raised.exception), text)
                if name != "DylinkSubsection":
                    # the error is found before printing
                    with self.assertRaises(getattr(wasmprinter, name)):
                        function(case.wasm, limit=1, **case.options)

    def check_events(self, case, lines):
        """Compares the lines among the events, and checks that styles start and end in turn."""
        found, is_open = [], False
        for event in wasmprinter.print_events(case.wasm, **case.options):
            self.assertIsInstance(event.kind, wasmprinter.Kind)
            if event.kind in (Kind.LINE, Kind.LINE_AT_PLACE):
                self.assertEqual(event.place is None, event.kind == Kind.LINE)
                found.append((event.place, ""))
            elif event.kind == Kind.CUSTOM_SECTION:
                self.assertLessEqual(event.place, len(case.wasm))
            else:
                self.assertIsNone(event.place)
                self.assertEqual(is_open, event.kind == Kind.RESET)
                is_open = not is_open
            found[-1] = found[-1][0], found[-1][1] + event.text
        self.assertFalse(is_open)
        self.assertEqual(found, lines)
        colored = wasmprinter.print_ansi(case.wasm, **case.options)
        self.assertEqual(SEQUENCE.sub("", colored), "".join(line.text for line in lines))

    def check_limits(self, case):
        """Prints with each limit from 1 to two bytes more than the text."""
        text = "".join(text for _, text in case.lines)
        length = len(text.encode("utf-8"))
        for limit in range(1, length):
            with self.assertRaises(wasmprinter.TooLong) as raised:
                wasmprinter.print_bytes(case.wasm, limit=limit, **case.options)
        check_error(self, raised.exception, "TooLong", 0)
        for limit in range(length, length + 3):
            self.assertEqual(wasmprinter.print_bytes(case.wasm, limit=limit, **case.options), text)


def check_error(test, error, name, detail):
    """Checks the fields of an error."""
    status, field = ERRORS[name]
    test.assertEqual((error.status, error.detail), (status, detail))
    fields = {field: getattr(error, field) for field in ("place", "count", "id", "bits") if hasattr(error, field)}
    test.assertEqual(fields, {} if field is None else {field: detail})


class Errors(unittest.TestCase):
    def test_errors_that_no_case_has(self):
        self.assertEqual(str(wasmprinter.TooLong()), "the text is too long")
        self.assertEqual(str(wasmprinter.OutOfMemory()), "out of memory")
        self.assertTrue(issubclass(wasmprinter.OutOfMemory, MemoryError))

    def test_each_class(self):
        for name in ERRORS:
            with self.subTest(name):
                check_error(self, getattr(wasmprinter, name)(31), name, 31)

    def test_pickled_errors(self):
        for error in (wasmprinter.Malformed(8), wasmprinter.OutOfMemory(), wasmprinter.Error(7, status=99)):
            copy = pickle.loads(pickle.dumps(error))
            self.assertIs(type(copy), type(error))
            self.assertEqual((copy.status, copy.detail, str(copy)), (error.status, error.detail, str(error)))

    def test_unknown_option(self):
        with self.assertRaises(wasmprinter.UnknownOption) as raised:
            wasmprinter._print_whole(EMPTY, 0x68, b"  ", 1, b"", 0)
        check_error(self, raised.exception, "UnknownOption", 0x60)
        self.assertEqual(str(raised.exception), "unknown options 0x60")

    def test_unknown_status(self):
        texts = (99, "unknown status"), (12, "the indent is not UTF-8"), (14, "the list of names is cut off at byte 0x0")
        for status, text in texts:
            with unittest.mock.patch.object(wasmprinter, "_print", return_value=status):
                with self.assertRaises(wasmprinter.Error) as raised:
                    wasmprinter.print_bytes(EMPTY)
            self.assertIs(type(raised.exception), wasmprinter.Error)
            self.assertEqual((raised.exception.status, raised.exception.detail, str(raised.exception)), (status, 0, text))


class Options(unittest.TestCase):
    def test_no_bool(self):
        for name in ("offsets", "skeleton", "name_unnamed", "fold"):
            for value in (1, 0, "no", None, []):
                for function in FUNCTIONS:
                    with self.subTest(name, value=value), self.assertRaisesRegex(TypeError, f"{name} must be a bool, not"):
                        function(EMPTY, **{name: value})

    def test_only_keywords(self):
        for function in (*FUNCTIONS, wasmprinter.print_file):
            with self.assertRaises(TypeError):
                function(EMPTY, True)

    def test_number_of_spaces(self):
        self.assertEqual(wasmprinter.print_bytes(ONE_TYPE, indent=0), "(module\n(type (;0;) (func))\n)\n")
        self.assertEqual(wasmprinter.print_bytes(ONE_TYPE, indent=3), "(module\n   (type (;0;) (func))\n)\n")

    def test_no_indent(self):
        for indent in (True, 2.0, b"  ", None):
            with self.subTest(indent), self.assertRaisesRegex(TypeError, "indent must be a str or an int, not"):
                wasmprinter.print_bytes(ONE_TYPE, indent=indent)
        with self.assertRaises(ValueError):
            wasmprinter.print_bytes(ONE_TYPE, indent=-1)

    def test_indent_with_a_zero_byte(self):
        self.assertEqual(wasmprinter.print_bytes(ONE_TYPE, indent="\0é"), "(module\n\0é(type (;0;) (func))\n)\n")


class Omitted(unittest.TestCase):
    # custom sections without data: `ab`, `a`, and U+00E9 in UTF-8
    WASM = EMPTY + b"\0\3\2ab" + b"\0\2\1a" + b"\0\3\2\xc3\xa9"
    LINES = '  (@custom "ab" (before first) "")\n', '  (@custom "a" (before first) "")\n', '  (@custom "\\u{e9}" (before first) "")\n'

    def text(self, *kept):
        return "(module\n" + "".join(self.LINES[index] for index in kept) + ")\n"

    def test_names(self):
        for omitted, kept in (
            ((), (0, 1, 2)),
            (["a"], (0, 2)),
            ({"ab"}, (1, 2)),
            (("\u00e9", b"ab"), (1,)),
            ((bytearray(b"\xc3\xa9"), memoryview(b"a")), (0,)),
            (iter(["", "b", "ab", "a"]), (2,)),
            (["\xc3", b"\xc3", "abc"], (0, 1, 2)),
        ):
            with self.subTest(omitted):
                self.assertEqual(wasmprinter.print_bytes(self.WASM, omitted=omitted), self.text(*kept))

    def test_no_section(self):
        for function in FUNCTIONS:
            printed = function(self.WASM, omitted=["a", "ab", "\u00e9"])
            text = printed if isinstance(printed, str) else "".join(part.text for part in printed)
            self.assertEqual(SEQUENCE.sub("", text), "(module)\n")

    def test_events(self):
        """The event of a section that is left out stays."""
        for omitted in ([], ["a", "ab"]):
            events = wasmprinter.print_events(self.WASM, omitted=omitted)
            self.assertEqual([event.place for event in events if event.kind == Kind.CUSTOM_SECTION], [13, 17, 22])

    def test_no_names(self):
        for omitted in ("a", b"a", bytearray(b"a"), memoryview(b"a")):
            with self.subTest(omitted), self.assertRaisesRegex(TypeError, "omitted must have names, and not be a"):
                wasmprinter.print_bytes(EMPTY, omitted=omitted)
        for name in (1, None, ["a"], True):
            with self.subTest(name), self.assertRaisesRegex(TypeError, "a name in omitted must be a str or bytes-like, not"):
                wasmprinter.print_bytes(EMPTY, omitted=[name])
        with self.assertRaises(TypeError):
            wasmprinter.print_bytes(EMPTY, omitted=1)


class Limits(unittest.TestCase):
    def test_no_limit(self):
        for function in FUNCTIONS:
            for limit in (True, False, 9.0, "9", []):
                with self.subTest(limit), self.assertRaisesRegex(TypeError, "limit must be an int or None, not"):
                    function(EMPTY, limit=limit)
            for limit in (0, -1, -(2**64)):
                with self.subTest(limit), self.assertRaisesRegex(ValueError, "limit must be at least 1"):
                    function(EMPTY, limit=limit)

    def test_great_limits(self):
        """A limit that the library can't count is no limit."""
        for limit in (None, 2**63, 2**64 - 1, 2**64, 2**64 + 1, 10**30):
            self.assertEqual(wasmprinter.print_bytes(EMPTY, limit=limit), "(module)\n")

    def test_long_text(self):
        text = "".join(text for _, text in LINES_WITH_NOPS)
        for limit in (len(text), len(text) + 1, 10 * len(text)):
            self.assertEqual(wasmprinter.print_bytes(WITH_NOPS, limit=limit), text)
            self.assertEqual(list(wasmprinter.print_lines(WITH_NOPS, limit=limit)), LINES_WITH_NOPS)
        for limit in (1, 4096, len(text) - 1):
            for function in FUNCTIONS:
                with self.assertRaises(wasmprinter.TooLong):
                    function(WITH_NOPS, limit=limit)

    def test_length_in_bytes(self):
        """The text has 31 characters and 33 bytes."""
        text = "(module\n\u20ac(type (;0;) (func))\n)\n"
        self.assertEqual(wasmprinter.print_bytes(ONE_TYPE, indent="\u20ac", limit=len(text) + 2), text)
        with self.assertRaises(wasmprinter.TooLong):
            wasmprinter.print_bytes(ONE_TYPE, indent="\u20ac", limit=len(text) + 1)

    def test_buffer(self):
        """Each buffer is unchanged after the text, or after a prefix of it."""
        text = b"(module\n  (type (;0;) (func))\n)\n"
        room = len(text) + 2
        for limit in range(room + 1):
            out, table, result = (ctypes.c_uint8 * room)(*b"#" * room), ctypes.c_uint8(), wasmprinter._Result()
            status = wasmprinter._print(ONE_TYPE, len(ONE_TYPE), 0, b"  ", 2, limit, b"", 0, out, room, table, 0, result)
            held = bytes(out).index(b"#")
            if limit < len(text):
                self.assertEqual((status, result.length, result.count, result.detail), (10, 0, 0, 0))
                self.assertLessEqual(held, limit)
            else:
                self.assertEqual((status, result.length, result.count, result.detail), (0, len(text), 3, 0))
                self.assertEqual(held, len(text))
            self.assertEqual(bytes(out), text[:held] + b"#" * (room - held))

    def test_capacities(self):
        """The first buffer is not longer than the limit."""
        for limit, room in ((33, 33), (4543, 4543), (4545, 4544), (None, 4544)):
            with unittest.mock.patch.object(wasmprinter, "_print", wraps=wasmprinter._print) as function:
                wasmprinter.print_bytes(ONE_TYPE, limit=limit)
            self.assertEqual(function.call_count, 1)
            self.assertEqual(function.call_args[0][9], room)


class Lines(unittest.TestCase):
    def test_iterator(self):
        lines = wasmprinter.print_lines(EMPTY)
        self.assertIs(iter(lines), lines)
        line = next(lines)
        self.assertIsInstance(line, wasmprinter.Line)
        self.assertEqual((line.place, line.text), (0, "(module)\n"))
        self.assertEqual(list(lines), [])

    def test_error_before_the_first_line(self):
        with self.assertRaises(wasmprinter.Malformed):
            wasmprinter.print_lines(b"")

    def test_line_without_a_place(self):
        """The line that closes a recursive group shows nothing of the module."""
        group = EMPTY + b"\1\6\1\x4e\1\x60\0\0"
        typed = [(0, "(module\n"), (11, "  (rec\n"), (13, "    (type (;0;) (func))\n"), (None, "  )\n"), (16, ")\n")]
        self.assertEqual(list(wasmprinter.print_lines(group)), typed)

    def test_line_of_other_characters(self):
        lines = wasmprinter.print_lines(ONE_TYPE, indent="é")
        self.assertEqual([line.text for line in lines], ["(module\n", "é(type (;0;) (func))\n", ")\n"])


class Events(unittest.TestCase):
    def test_typed_events(self):
        events = list(wasmprinter.print_events(ONE_TYPE))
        self.assertEqual(events, EVENTS)
        self.assertIsInstance(events[0], wasmprinter.Event)
        self.assertEqual((events[0].kind, events[0].place, events[0].text), (Kind.LINE_AT_PLACE, 0, "("))

    def test_iterator(self):
        events = wasmprinter.print_events(EMPTY)
        self.assertIs(iter(events), events)
        self.assertEqual(next(events).text, "(")

    def test_error_before_the_first_event(self):
        with self.assertRaises(wasmprinter.Malformed):
            wasmprinter.print_events(b"")

    def test_custom_section(self):
        events = list(wasmprinter.print_events(EMPTY + b"\0\3\1a\1"))
        self.assertEqual([event for event in events if event.kind == Kind.CUSTOM_SECTION], [(Kind.CUSTOM_SECTION, 12, "\n")])

    def test_folded_operators(self):
        """The text of a folded operator has no styles."""
        events = list(wasmprinter.print_events(IDENTITY, fold=True))
        at = events.index((Kind.LINE_AT_PLACE, 32, "    (local.get 0)\n"))
        self.assertEqual(events[at + 1:], [(Kind.LINE_AT_PLACE, 34, "  )\n"), (Kind.LINE_AT_PLACE, 35, ")\n")])

    def test_colors(self):
        self.assertEqual(wasmprinter.print_ansi(IDENTITY), IDENTITY_IN_COLORS)
        length = len(SEQUENCE.sub("", IDENTITY_IN_COLORS))
        self.assertEqual(wasmprinter.print_ansi(IDENTITY, limit=length), IDENTITY_IN_COLORS)
        with self.assertRaises(wasmprinter.TooLong):
            wasmprinter.print_ansi(IDENTITY, limit=length - 1)

    def test_unknown_kind(self):
        """A later release may have other kinds."""
        table = b"".join(wasmprinter._EVENT.pack(start, 7, kind) for start, kind in ((0, 1), (1, 9), (2, 7)))
        events = wasmprinter._events(memoryview(b"abc"), memoryview(table))
        self.assertEqual(list(events), [(Kind.LINE_AT_PLACE, 7, "a"), (9, None, "b"), (Kind.RESET, None, "c")])
        with unittest.mock.patch.object(wasmprinter, "_print_whole", return_value=(memoryview(b"abc"), memoryview(table))):
            self.assertEqual(wasmprinter.print_ansi(b""), "ab\x1b[0mc")

    def test_kinds(self):
        names = "LINE", "LINE_AT_PLACE", "NAME", "LITERAL", "KEYWORD", "TYPE", "COMMENT", "RESET", "CUSTOM_SECTION"
        self.assertEqual([(kind.name, kind.value) for kind in Kind], [(name, number) for number, name in enumerate(names)])


class Memory(unittest.TestCase):
    """Texts and tables that are longer than the first buffers, and failing allocations."""

    LONG = " " * 5000
    TEXT = f"(module\n{LONG}(type (;0;) (func))\n)\n"

    def test_long_text(self):
        self.assertEqual(wasmprinter.print_bytes(ONE_TYPE, indent=self.LONG), self.TEXT)
        self.assertEqual("".join(line.text for line in wasmprinter.print_lines(ONE_TYPE, indent=self.LONG)), self.TEXT)

    def test_many_lines(self):
        self.assertEqual(wasmprinter.print_bytes(WITH_NOPS), "".join(text for _, text in LINES_WITH_NOPS))
        self.assertEqual(list(wasmprinter.print_lines(WITH_NOPS)), LINES_WITH_NOPS)

    def test_many_events(self):
        """The first buffer has the length of the text, and an event starts for less than 4 bytes. So the module is printed twice."""
        types = 200
        wasm = EMPTY + b"\1\xda\4\xc8\1" + b"\x60\0\0" * types
        text = "(module\n" + "".join(f"  (type (;{index};) (func))\n" for index in range(types)) + ")\n"
        with unittest.mock.patch.object(wasmprinter, "_print", wraps=wasmprinter._print) as function:
            events = list(wasmprinter.print_events(wasm, limit=len(text)))
        self.assertEqual(function.call_count, 2)
        self.assertEqual(len(events), 4 + types * 7)
        self.assertEqual("".join(event.text for event in events), text)

    def test_calls(self):
        """A text that fits is printed once, and any other twice: here texts with 8, 20, 32 and 34 bytes for each byte of the module."""
        for wasm, indent, length, calls in (
            (WITH_NOPS, 2, 32059, 1),
            (WITH_NOPS, 8, 80077, 1),
            (WITH_NOPS, 14, 128095, 1),
            (WITH_NOPS, 15, 136098, 2),
            (ONE_TYPE, self.LONG, 5030, 2),
        ):
            with unittest.mock.patch.object(wasmprinter, "_print", wraps=wasmprinter._print) as function:
                self.assertEqual(len(wasmprinter.print_bytes(wasm, indent=indent)), length)
            self.assertEqual(function.call_count, calls)

    def test_capacities(self):
        """The first buffer has 32 bytes for each byte of the module. The first table has an entry for 16 bytes of a text of 12 bytes, or for 4."""
        for wasm, limit, print_module, room, entries in (
            (ONE_TYPE, None, wasmprinter.print_bytes, 4544, 0),
            (ONE_TYPE, None, wasmprinter.print_lines, 4544, 330),
            (ONE_TYPE, None, wasmprinter.print_events, 4544, 1130),
            (ONE_TYPE, 33, wasmprinter.print_lines, 33, 66),
            (ONE_TYPE, 4400, wasmprinter.print_lines, 4400, 330),
            (WITH_NOPS, None, wasmprinter.print_lines, 132928, 3339),
            (WITH_NOPS, None, wasmprinter.print_events, 132928, 13166),
        ):
            with unittest.mock.patch.object(wasmprinter, "_print", wraps=wasmprinter._print) as function:
                print_module(wasm, limit=limit)
            first = function.call_args_list[0][0]
            self.assertEqual((first[9], first[11]), (room, entries))

    def failing(self, longest):
        """Lets allocations of more than a number of bytes fail."""
        allocate = wasmprinter.mmap.mmap

        def limited(descriptor, size, **others):
            if size > longest:
                raise OSError(12, "Cannot allocate memory")
            return allocate(descriptor, size, **others)

        return unittest.mock.patch.object(wasmprinter.mmap, "mmap", limited)

    def test_little_memory(self):
        """There is no memory for the first buffers, but for the text and the table."""
        with self.failing(100):
            self.assertEqual(wasmprinter.print_bytes(EMPTY), "(module)\n")
            self.assertEqual(list(wasmprinter.print_lines(EMPTY)), [(0, "(module)\n")])
            self.assertEqual("".join(event.text for event in wasmprinter.print_events(EMPTY)), "(module)\n")

    def test_no_memory(self):
        failing = *((0, function) for function in FUNCTIONS), (20, wasmprinter.print_lines), (20, wasmprinter.print_events)
        for longest, function in failing:
            with self.failing(longest), self.assertRaises(wasmprinter.OutOfMemory):
                function(EMPTY)


class Files(unittest.TestCase):
    def test_files(self):
        with tempfile.TemporaryDirectory() as folder:
            path = pathlib.Path(folder, "module.wasm")
            path.write_bytes(ONE_TYPE)
            for name in (path, str(path), os.fsencode(path)):
                self.assertEqual(wasmprinter.print_file(name), "(module\n  (type (;0;) (func))\n)\n")
            self.assertEqual(wasmprinter.print_file(path, indent=0), "(module\n(type (;0;) (func))\n)\n")
            with self.assertRaises(wasmprinter.TooLong):
                wasmprinter.print_file(path, limit=1)
            path.write_bytes(b"(module)")
            with self.assertRaises(wasmprinter.Malformed):
                wasmprinter.print_file(path)
            with self.assertRaises(FileNotFoundError):
                wasmprinter.print_file(pathlib.Path(folder, "missing.wasm"))
            with self.assertRaises(IsADirectoryError):
                wasmprinter.print_file(folder)

    def test_no_path(self):
        with self.assertRaises(TypeError):
            wasmprinter.print_file(0)


class Library(unittest.TestCase):
    def import_with(self, library):
        """Imports the package with another library in a new process, and returns the last line of its standard error."""
        environment = {
            **os.environ,
            "PYTHONPATH": str(pathlib.Path(wasmprinter.__file__).resolve().parent.parent),
            "WASMPRINTER_SO": library,
        }
        command = [sys.executable, "-B", "-c", "import wasmprinter"]
        ended = subprocess.run(command, env=environment, stderr=subprocess.PIPE, universal_newlines=True)
        self.assertEqual(ended.returncode, 1)
        return ended.stderr.strip().split("\n")[-1]

    def test_missing_library(self):
        message = self.import_with("/nowhere/libwasmprinter.so")
        self.assertRegex(message, r"^ImportError: .*/nowhere/libwasmprinter\.so.*tools/install\.sh.*WASMPRINTER_SO")

    def test_another_library(self):
        message = self.import_with("libc.so.6")
        self.assertRegex(message, r"^ImportError: libc\.so\.6 is not libwasmprinter.*tools/install\.sh.*WASMPRINTER_SO")

    def test_names_of_the_library(self):
        with unittest.mock.patch.object(wasmprinter.ctypes, "CDLL", side_effect=OSError("missing")) as load:
            with unittest.mock.patch.dict(os.environ, {"WASMPRINTER_SO": ""}), self.assertRaises(ImportError):
                wasmprinter._load()
        self.assertEqual([call[0][0] for call in load.call_args_list], ["libwasmprinter.so.1", "libwasmprinter.so"])

    def test_version(self):
        self.assertEqual(wasmprinter.version(), (0, 263, 0))
        self.assertEqual(wasmprinter.revision(), 1)
        self.assertEqual(wasmprinter.__version__, "0.263.0.post1")

    def test_threads(self):
        texts = []
        threads = [threading.Thread(target=lambda: texts.append(wasmprinter.print_bytes(EMPTY))) for _ in range(8)]
        for thread in threads:
            thread.start()
        for thread in threads:
            thread.join()
        self.assertEqual(texts, ["(module)\n"] * 8)


class Others(unittest.TestCase):
    def test_empty_input(self):
        with self.assertRaises(wasmprinter.Malformed):
            wasmprinter.print_bytes(b"")

    def test_other_bytes(self):
        self.assertEqual(wasmprinter.print_bytes(bytearray(EMPTY)), "(module)\n")
        self.assertEqual(wasmprinter.print_bytes(memoryview(EMPTY)), "(module)\n")

    def test_no_bytes(self):
        for data in (8, "(module)", None):
            with self.assertRaises(TypeError):
                wasmprinter.print_bytes(data)

    def test_examples(self):
        readme = pathlib.Path(__file__).resolve().with_name("README.md")
        self.assertEqual(doctest.testmod(wasmprinter), (0, 1))
        self.assertEqual(doctest.testfile(str(readme), module_relative=False, encoding="utf-8"), (0, 4))

    def test_names(self):
        for name in wasmprinter.__all__:
            self.assertTrue(hasattr(wasmprinter, name), name)


if __name__ == "__main__":
    unittest.main()
