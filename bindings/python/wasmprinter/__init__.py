"""Prints WebAssembly modules, from the binary format to the text format.

    >>> print_bytes(b"\\0asm\\1\\0\\0\\0")
    '(module)\\n'

This package calls the proved library libwasmprinter through ctypes. The environment variable WASMPRINTER_SO names the library. If it is not
set, libwasmprinter.so.1 or libwasmprinter.so is loaded from the system's search path. Calls from several threads run at the same time.

Options of the functions that print:

- offsets begins each line after the first with its place, its byte offset in the module.
- skeleton leaves out bodies, items of element segments, and bytes of data segments and (@custom ..).
- name_unnamed synthesizes identifiers for items and labels without a name.
- fold puts each operator in parentheses with its operands.
- indent is the text of one level of nesting, or a number of spaces.
- limit is the greatest length of the text in bytes, or None. TooLong is raised for a longer text.
- omitted has the names of custom sections to leave out, each a str or BytesLike. The names in a section `name` and the hints in a section
  `metadata.code.branch_hint` apply even if it is left out.
"""

from __future__ import annotations

import ctypes
import enum
import itertools
import mmap
import os
import struct
from typing import Any, ClassVar, Dict, Iterable, Iterator, NamedTuple, Optional, Tuple, Type, Union

__all__ = [
    "print_bytes", "print_file", "print_lines", "print_events", "print_ansi", "version", "revision", "BytesLike", "Line", "Event", "Kind", "Error",
    "Malformed", "Component", "TooManyLocals", "TooManyFunctions", "EmptyTableInit", "FoldLegacy", "FoldHint", "DylinkSubsection", "TooLong",
    "OutOfMemory", "UnknownOption",
]

# the release 0.263.0-r1
__version__ = "0.263.0.post1"

BytesLike = Union[bytes, bytearray, memoryview]

# WASMPRINTER_OK and WASMPRINTER_ERROR_TEXT_LEN in wasmprinter.h
_SUCCESS = 0
_ERROR_TEXT_LEN = 200

# the greatest length, which means no limit
_SIZE_MAX = ctypes.c_size_t(-1).value

# the bits of the options
_FLAGS = {"offsets": 1, "skeleton": 2, "name_unnamed": 4, "fold": 8}
_EVENTS = 16

# WasmprinterEvent: start, place, kind
_EVENT = struct.Struct("NQI4x")

# Nearly every text has at most 32 bytes for each byte of the module.
_TEXT_PER_BYTE, _LEAST_TEXT = 32, 4096
# A table is expected to be that of a text with 12 bytes for each byte of the module: a longer text mostly has longer lines, not more of them. Of
# that text, most lines have more than 16 bytes, and an event is expected for 4 bytes.
_TABLE_TEXT_PER_BYTE = 12
_TEXT_PER_LINE, _TEXT_PER_EVENT, _LEAST_ENTRIES = 16, 4, 64

# factors of the parts of the version number
_MAJOR, _MINOR = 1_000_000, 1_000


class Error(Exception):
    """The reason why a module was not printed.

    `status` is the number of the error in wasmprinter.h. `detail` is its place, count, id or bits, or 0. An error of this class itself has a
    status that this package does not know; its text is the description of the library.
    """

    status: int = _SUCCESS
    detail: int
    _by_status: ClassVar[Dict[int, Type[Error]]] = {}

    def __init_subclass__(cls, *, status: Optional[int] = None, **others: Any) -> None:
        """Registers the class under its status."""
        super().__init_subclass__(**others)
        if status is not None:
            cls.status = status
            Error._by_status[status] = cls

    def __init__(self, detail: int = 0, *, status: Optional[int] = None) -> None:
        super().__init__(detail)
        self.detail = detail
        if status is not None:
            self.status = status

    def __str__(self) -> str:
        out = (ctypes.c_uint8 * _ERROR_TEXT_LEN)()
        length = _error_text(self.status, self.detail, out, len(out))
        return bytes(out[:length]).decode("ascii")


class _PlacedError(Error):
    """An error at a place."""

    @property
    def place(self) -> int:
        """The place: a byte offset from the start of the module."""
        return self.detail


class Malformed(_PlacedError, status=1):
    """The bytes are not in the binary format. `place` is as wasmprinter.h describes it."""


class Component(Error, status=2):
    """The bytes are marked as a component."""


class TooManyLocals(_PlacedError, status=3):
    """A function has more than 50,000 locals. `place` is that of its body."""


class TooManyFunctions(Error, status=4):
    """The module defines more than 1,000,000 functions."""

    @property
    def count(self) -> int:
        """The number of functions."""
        return self.detail


class EmptyTableInit(_PlacedError, status=5):
    """The initialiser of a table has no operators. `place` is that of the table."""


class FoldLegacy(_PlacedError, status=6):
    """Operators are folded, and one is a legacy exception operator. `place` is that of the operator."""


class FoldHint(_PlacedError, status=7):
    """Operators are folded, and a branch hint has no position in folded text. `place` is that of the branch hint."""


class DylinkSubsection(Error, status=8):
    """A `dylink.0` section that is not left out has an unknown subsection."""

    @property
    def id(self) -> int:
        """The id of the first unknown subsection."""
        return self.detail


class TooLong(Error, status=10):
    """The text has more bytes than the limit or, without a limit, than an address can count."""


class OutOfMemory(Error, MemoryError, status=11):
    """An allocation failed."""


class UnknownOption(Error, status=13):
    """The library does not know an option of this package: it is an earlier release."""

    @property
    def bits(self) -> int:
        """The bits of the options that the library does not know."""
        return self.detail


class Line(NamedTuple):
    """A line of the text with its line feed, and its byte offset in the module, or `None` if it has none."""

    place: Optional[int]
    text: str


class Kind(enum.IntEnum):
    """The kinds of events. A style lasts until the next style event, one of the kinds from NAME to RESET."""

    LINE = 0
    """A line without a place starts."""
    LINE_AT_PLACE = 1
    """A line with a place starts."""
    NAME = 2
    """The style of names and indices starts."""
    LITERAL = 3
    """The style of numbers and strings starts."""
    KEYWORD = 4
    """The style of keywords starts."""
    TYPE = 5
    """The style of types starts."""
    COMMENT = 6
    """The style of comments starts."""
    RESET = 7
    """The style ends."""
    CUSTOM_SECTION = 8
    """The lines of a custom section follow, if it is printed."""


class Event(NamedTuple):
    """An event of the text, with the text from its start to the next event. The texts of all events are the whole text.

    `kind` is a Kind, or another number if the library is a later release. `place` is the place of a line, or that of the data of a custom
    section, otherwise `None`.
    """

    kind: int
    place: Optional[int]
    text: str


_KINDS = {kind.value: kind for kind in Kind}
_PLACED = (Kind.LINE_AT_PLACE, Kind.CUSTOM_SECTION)

# the escape sequences for colors, as `printwasm --color` writes them
_SEQUENCES = {
    Kind.NAME: "\x1b[0m\x1b[35m",
    Kind.LITERAL: "\x1b[0m\x1b[31m",
    Kind.KEYWORD: "\x1b[0m\x1b[1m\x1b[38;5;11m",
    Kind.TYPE: "\x1b[0m\x1b[1m\x1b[38;5;10m",
    Kind.COMMENT: "\x1b[0m\x1b[36m",
    Kind.RESET: "\x1b[0m",
}


class _Result(ctypes.Structure):
    """WasmprinterResult."""

    _fields_ = [("length", ctypes.c_size_t), ("count", ctypes.c_size_t), ("detail", ctypes.c_uint64)]


def _missing(reason: str) -> ImportError:
    """Returns the error for a library that is missing."""
    return ImportError(f"{reason}. Install the library with tools/install.sh, or set WASMPRINTER_SO to its path.", name=__name__)


def _load() -> ctypes.CDLL:
    """Returns the library. Raises ImportError if it can't be loaded."""
    named = os.environ.get("WASMPRINTER_SO")
    reasons = []
    for name in [named] if named else ["libwasmprinter.so.1", "libwasmprinter.so"]:
        try:
            return ctypes.CDLL(name)
        except OSError as reason:
            reasons.append(str(reason))
    raise _missing(f"libwasmprinter can't be loaded: {'; '.join(reasons)}")


_library = _load()


def _function(name: str, result: Any, *arguments: Any) -> Any:
    """Returns a function of the library with its types. Raises ImportError if it is missing."""
    try:
        function = getattr(_library, name)
    except AttributeError as reason:
        raise _missing(f"{_library._name} is not libwasmprinter, or an earlier release: {reason}") from None
    function.restype, function.argtypes = result, arguments
    return function


_print = _function(
    "wasmprinter_raw_print", ctypes.c_uint32,
    ctypes.c_char_p, ctypes.c_size_t,
    ctypes.c_uint32,
    ctypes.c_char_p, ctypes.c_size_t,
    ctypes.c_size_t,
    ctypes.c_char_p, ctypes.c_size_t,
    ctypes.POINTER(ctypes.c_uint8), ctypes.c_size_t,
    ctypes.POINTER(ctypes.c_uint8), ctypes.c_size_t,
    ctypes.POINTER(_Result),
)
_error_text = _function(
    "wasmprinter_raw_error_text", ctypes.c_size_t,
    ctypes.c_uint32, ctypes.c_uint64, ctypes.POINTER(ctypes.c_uint8), ctypes.c_size_t,
)
_version = _function("wasmprinter_version", ctypes.c_uint32)
_revision = _function("wasmprinter_revision", ctypes.c_uint32)


def _error_of(status: int, detail: int) -> Error:
    """Returns the error with a status and a detail."""
    known = Error._by_status.get(status)
    return Error(detail, status=status) if known is None else known(detail)


def _flags_of(**options: bool) -> int:
    """Returns the sum of the bits of the options. Raises TypeError if one is no bool."""
    for name, value in options.items():
        if not isinstance(value, bool):
            raise TypeError(f"{name} must be a bool, not {type(value).__name__}")
    return sum(_FLAGS[name] for name, value in options.items() if value)


def _indent_of(indent: Union[str, int]) -> bytes:
    """Returns the text of one level of nesting in UTF-8. Raises TypeError if it is neither a text nor a number of spaces."""
    if isinstance(indent, str):
        return indent.encode("utf-8")
    if not isinstance(indent, int) or isinstance(indent, bool):
        raise TypeError(f"indent must be a str or an int, not {type(indent).__name__}")
    if indent < 0:
        raise ValueError("indent must not be negative")
    return b" " * indent


def _limit_of(limit: Optional[int]) -> int:
    """Returns the greatest length of the text. Raises TypeError if the limit is neither an int nor None, and ValueError if it is less than 1."""
    if limit is None:
        return _SIZE_MAX
    if not isinstance(limit, int) or isinstance(limit, bool):
        raise TypeError(f"limit must be an int or None, not {type(limit).__name__}")
    if limit < 1:
        raise ValueError("limit must be at least 1")
    return min(limit, _SIZE_MAX)


def _list_of(omitted: Iterable[Union[str, BytesLike]]) -> bytes:
    """Returns the names as a list for the library. Raises TypeError if they are one str or bytes-like, or if a name is neither."""
    if isinstance(omitted, (str, bytes, bytearray, memoryview)):
        raise TypeError(f"omitted must have names, and not be a {type(omitted).__name__} itself")
    parts = []
    for name in omitted:
        if isinstance(name, str):
            name = name.encode("utf-8")
        elif not isinstance(name, (bytes, bytearray, memoryview)):
            raise TypeError(f"a name in omitted must be a str or bytes-like, not {type(name).__name__}")
        name = bytes(name)
        parts.append(struct.pack("<I", len(name)) + name)
    return b"".join(parts)


def _allocate(size: int) -> Union[mmap.mmap, bytes]:
    """Returns memory of this size, or empty bytes if that fails. Pages that are not written to take no memory."""
    try:
        return mmap.mmap(-1, size, flags=mmap.MAP_PRIVATE | mmap.MAP_ANONYMOUS) if size > 0 else b""
    except (OSError, OverflowError):
        return b""


def _first(memory: Union[mmap.mmap, bytes]) -> ctypes.c_uint8:
    """Returns the first byte of the memory. If it is empty, returns a byte that the library does not write to."""
    return ctypes.c_uint8() if isinstance(memory, bytes) else ctypes.c_uint8.from_buffer(memory)


def _print_whole(
    data: BytesLike, flags: int, indent: bytes, limit: int, names: bytes, text_per_entry: int,
) -> Tuple[memoryview, memoryview]:
    """Returns the text in UTF-8, and the table of its lines or events, which is empty if it is not needed. Raises Error or a subclass.

    An entry of the table is expected for `text_per_entry` bytes of a text with _TABLE_TEXT_PER_BYTE bytes for each byte of the module. If
    `text_per_entry` is 0, the table is not needed. Nearly every module is printed once. It is printed again if its text or its table is longer than
    expected, or if there is not enough memory for the expected lengths.
    """
    wasm = data if isinstance(data, bytes) else memoryview(data).tobytes()
    expected = min(len(wasm) * _TEXT_PER_BYTE + _LEAST_TEXT, limit)
    table_text = min(len(wasm) * _TABLE_TEXT_PER_BYTE + _LEAST_TEXT, limit)
    entries = table_text // text_per_entry + _LEAST_ENTRIES if text_per_entry > 0 else 0
    text, table = _allocate(expected), _allocate(entries * _EVENT.size)
    result = _Result()
    while True:
        status = _print(
            wasm, len(wasm), flags, indent, len(indent), limit, names, len(names),
            _first(text), len(text), _first(table), len(table) // _EVENT.size, result,
        )
        if status != _SUCCESS:
            raise _error_of(status, result.detail)
        table_len = result.count * _EVENT.size if text_per_entry > 0 else 0
        if result.length <= len(text) and table_len <= len(table):
            return memoryview(text)[:result.length], memoryview(table)[:table_len]
        text, table = _allocate(result.length), _allocate(table_len)
        if len(text) < result.length or len(table) < table_len:
            raise OutOfMemory()


def print_bytes(
    data: BytesLike, *,
    offsets: bool = False, skeleton: bool = False, name_unnamed: bool = False, fold: bool = False, indent: Union[str, int] = "  ",
    limit: Optional[int] = None, omitted: Iterable[Union[str, BytesLike]] = (),
) -> str:
    """Returns the text of a module. Raises Error or a subclass if it can't be printed."""
    flags = _flags_of(offsets=offsets, skeleton=skeleton, name_unnamed=name_unnamed, fold=fold)
    text, _ = _print_whole(data, flags, _indent_of(indent), _limit_of(limit), _list_of(omitted), 0)
    return str(text, "utf-8")


def print_file(
    path: Union[str, os.PathLike[str]], *,
    offsets: bool = False, skeleton: bool = False, name_unnamed: bool = False, fold: bool = False, indent: Union[str, int] = "  ",
    limit: Optional[int] = None, omitted: Iterable[Union[str, BytesLike]] = (),
) -> str:
    """Returns the text of the module in a file. Raises OSError if the file can't be read, or a subclass of Error."""
    with open(os.fspath(path), "rb") as file:
        data = file.read()
    return print_bytes(
        data, offsets=offsets, skeleton=skeleton, name_unnamed=name_unnamed, fold=fold, indent=indent, limit=limit, omitted=omitted,
    )


def print_lines(
    data: BytesLike, *,
    offsets: bool = False, skeleton: bool = False, name_unnamed: bool = False, fold: bool = False, indent: Union[str, int] = "  ",
    limit: Optional[int] = None, omitted: Iterable[Union[str, BytesLike]] = (),
) -> Iterator[Line]:
    """Prints a module, and returns an iterator over the lines of its text. Raises Error or a subclass if the module can't be printed.

    The iterator keeps the text and a table of 24 bytes for each line. It makes each Line when it returns it.
    """
    flags = _flags_of(offsets=offsets, skeleton=skeleton, name_unnamed=name_unnamed, fold=fold)
    printed = _print_whole(data, flags, _indent_of(indent), _limit_of(limit), _list_of(omitted), _TEXT_PER_LINE)
    return (Line(place, text) for _, place, text in _events(*printed))


def print_events(
    data: BytesLike, *,
    offsets: bool = False, skeleton: bool = False, name_unnamed: bool = False, fold: bool = False, indent: Union[str, int] = "  ",
    limit: Optional[int] = None, omitted: Iterable[Union[str, BytesLike]] = (),
) -> Iterator[Event]:
    """Prints a module, and returns an iterator over all events of its text. Raises Error or a subclass if the module can't be printed.

    The iterator keeps the text and a table of 24 bytes for each event. It makes each Event when it returns it.
    """
    flags = _flags_of(offsets=offsets, skeleton=skeleton, name_unnamed=name_unnamed, fold=fold) | _EVENTS
    return _events(*_print_whole(data, flags, _indent_of(indent), _limit_of(limit), _list_of(omitted), _TEXT_PER_EVENT))


def print_ansi(
    data: BytesLike, *,
    offsets: bool = False, skeleton: bool = False, name_unnamed: bool = False, fold: bool = False, indent: Union[str, int] = "  ",
    limit: Optional[int] = None, omitted: Iterable[Union[str, BytesLike]] = (),
) -> str:
    """Returns the text of a module with ANSI escape sequences for colors. Raises Error or a subclass if it can't be printed.

    In folded operators, only places have colors. The limit is that of the text without escape sequences.
    """
    events = print_events(
        data, offsets=offsets, skeleton=skeleton, name_unnamed=name_unnamed, fold=fold, indent=indent, limit=limit, omitted=omitted,
    )
    return "".join(_SEQUENCES.get(kind, "") + text for kind, _, text in events)


def _events(text: memoryview, table: memoryview) -> Iterator[Event]:
    """Yields the events of a text."""
    rows = itertools.chain(_EVENT.iter_unpack(table), [(len(text), 0, 0)])
    start, place, kind = next(rows)
    for end, next_place, next_kind in rows:
        yield Event(_KINDS.get(kind, kind), place if kind in _PLACED else None, str(text[start:end], "utf-8"))
        start, place, kind = end, next_place, next_kind


def version() -> Tuple[int, int, int]:
    """Returns the version of the library: the major, the minor and the patch number."""
    number = _version()
    return number // _MAJOR, number % _MAJOR // _MINOR, number % _MINOR


def revision() -> int:
    """Returns the number N of the release 0.263.0-rN of the library."""
    return _revision()
