"""Finds modules and texts that others made: in the suites of Debian's source packages, in packages, and in folders."""

import glob
import os
import re

from running import read
from wasm import MAGIC, members
from wast import Unreadable, module_parts, strings_of, trees

ASSERTIONS = ("assert_malformed", "assert_invalid", "assert_unlinkable", "assert_trap", "assert_uninstantiable")
TEXTS = (".wast", ".wat", ".txt")
TESTED = (b"wat2wasm", b"run-roundtrip", b"run-objdump")  # the tools whose tests in wabt are texts of modules
MODULE = re.compile(rb"\s*\(module\b")


class Item:
    """A text or a module to compare, and where it comes from. `message`: the suite calls it malformed, with this message.

    `expects_error`: its suite expects an error of an assembler, which may come from validating.
    """

    def __init__(self, source, path, data, is_text, message=None, expects_error=False):
        self.source, self.path, self.data, self.is_text, self.message, self.expects_error = source, path, data, is_text, message, expects_error


def with_module(text):
    """Returns a quoted text with the `(module ..)` around it that the standard lets a text leave out."""
    return text if MODULE.match(text) else b"(module " + text + b"\n)"


def module_item(source, path, text, group, message):
    """Returns the item of a group `(module ..)` of a script, or `None` if it defines no module."""
    word, rest = module_parts(group)
    if word is None:
        return Item(source, path, text, True, message)
    if word == b"binary":
        return Item(source, path, strings_of(rest), False, message)
    return Item(source, path, with_module(strings_of(rest)), True, message) if word == b"quote" else None


def script_items(source, path, content):
    """Returns the items of a script: each module, also those in assertions. Returns none if the script has no tree."""
    try:
        tops = trees(content)
    except (Unreadable, KeyError, ValueError):
        return []
    found = []
    for group, start, end in tops:
        head = group[0] if isinstance(group, list) and group else b""
        if head == b"module":
            found.append(module_item(source, path, content[start:end], group, None))
        elif isinstance(head, bytes) and head.decode("utf-8", "replace") in ASSERTIONS and isinstance(group[1], list) and group[1][0] == b"module":
            inside = content[start + 1:end - 1]
            module = next(it for it in trees(inside) if isinstance(it[0], list))
            message = strings_of(group[2:]).decode("utf-8", "replace") if head == b"assert_malformed" else None
            found.append(module_item(source, path, inside[module[1]:module[2]], group[1], message))
    return [it for it in found if it]


def wabt_item(source, path, content):
    """Returns the text of a test of wabt, a file whose lines for the test runner are comments. Returns `None` for tests of other tools."""
    head = content.split(b"\n\n")[0]
    if not any(b";;; TOOL: " + tool in head for tool in TESTED):
        return None
    return Item(source, path, content, True, expects_error=b";;; ERROR:" in head)


def file_items(source, path):
    """Returns the items of a file, by the ending of its name."""
    content = read(path)
    if content[:8] == MAGIC or path.endswith(".wasm"):
        return [Item(source, path, content, False)]
    if path.endswith(".wast"):
        return script_items(source, path, content)
    if path.endswith(".wat"):
        return [Item(source, path, content, True)]
    found = wabt_item(source, path, content)
    return [found] if found else []


def folder_items(source, folder, endings):
    """Returns the items of all files under a folder whose names have one of these endings."""
    paths = sorted(it for it in glob.glob(os.path.join(folder, "**", "*"), recursive=True) if it.endswith(endings) and os.path.isfile(it))
    return [item for path in paths for item in file_items(source, path)]


def archive_items(source, pattern):
    """Returns the objects in the archives that a pattern names."""
    found = []
    for path in sorted(glob.glob(pattern, recursive=True)):
        data = read(os.path.realpath(path))
        parts = [("", data)] if data[:8] == MAGIC else members(data)
        found += [Item(source, f"{path}:{name}", content, False) for name, content in parts if content[:8] == MAGIC]
    return found


def all_items(work, folders):
    """Returns all items: of the suites, of the packages, and of the folders that the caller names."""
    suites, packages = os.path.join(work, "suites"), os.path.join(work, "packages")
    found = []
    for folder in sorted(glob.glob(os.path.join(suites, "*"))):
        name = os.path.basename(folder).split("-")[0]
        found += folder_items(f"suite of {name}", os.path.join(folder, "test"), TEXTS + (".wasm",))
    # The texts in wazero's folders are those of the standard's test suite. Most of its modules are these texts, assembled by wabt.
    found += folder_items("standard's suite, in wazero", os.path.join(packages, "golang-github-tetratelabs-wazero-dev"), (".wast",))
    found += folder_items("modules in wazero", os.path.join(packages, "golang-github-tetratelabs-wazero-dev"), (".wasm",))
    found += archive_items("objects of wasi-libc (clang)", os.path.join(packages, "wasi-libc", "**", "wasm32-wasi", "*.[ao]"))
    found += archive_items("objects of libstd-rust (rustc)", os.path.join(packages, "libstd-rust-dev-wasm32", "**", "wasm32-unknown-unknown", "**", "*.rlib"))
    for folder in folders:
        found += folder_items(folder, folder, (".wasm", ".wast", ".wat"))
    return found
