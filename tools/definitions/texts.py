"""Makes the pairs of a text and a module that are compared, by the tools of others."""

import hashlib
import os
import tempfile

from running import found, read, run, write

# The name of each printer, its program, its arguments, and whether its texts contain the custom sections that it doesn't know.
PRINTERS = (
    ("wasm-tools print", "wasm-tools", ("print",), True),
    ("wasm-tools print, folded", "wasm-tools", ("print", "--fold-instructions"), True),
    ("wasm2wat", "wasm2wat", ("--enable-all", "--disable-annotations", "--no-check"), False),
    ("wasm2wat, folded", "wasm2wat", ("--enable-all", "--disable-annotations", "--no-check", "--fold-exprs"), False),
)
# The name of each assembler, its program and its arguments. The file names come after them.
ASSEMBLERS = (
    ("wasm-tools parse", "wasm-tools", ("parse",)),
    ("wat2wasm", "wat2wasm", ("--enable-all", "--no-check", "--debug-names")),
)


class Module:
    """A module: its bytes, its source, the tool that made its bytes, and where it comes from."""

    def __init__(self, source, path, data, made_by):
        self.source, self.path, self.data, self.made_by = source, path, data, made_by


class Pair:
    """A text beside the module that it was printed from, or that was assembled from it. `keeps_customs`: the text has the custom sections."""

    def __init__(self, module, name, text, keeps_customs):
        self.module, self.name, self.text, self.keeps_customs = module, name, text, keeps_customs


def assembled(item):
    """Returns the modules that the assemblers make of a text, without duplicates, each with the name of the first assembler that makes it."""
    made = {}
    with tempfile.TemporaryDirectory(prefix="wasmprinter-definitions-") as folder:
        text, out = write(os.path.join(folder, "text.wat"), item.data), os.path.join(folder, "module.wasm")
        for name, program, words in ASSEMBLERS:
            if found(program) and run([found(program), *words, text, "-o", out]).status == 0:
                made.setdefault(read(out), name)
    return [Module(item.source, item.path, data, name) for data, name in made.items()]


def printed(module):
    """Returns the pairs of a module with the text of each printer that prints it."""
    pairs = []
    with tempfile.TemporaryDirectory(prefix="wasmprinter-definitions-") as folder:
        path = write(os.path.join(folder, "module.wasm"), module.data)
        for name, program, words, keeps_customs in PRINTERS:
            ran = run([found(program), *words, path]) if found(program) else None
            if ran and ran.status == 0 and ran.out.strip():
                pairs.append(Pair(module, name, ran.out, keeps_customs))
    return pairs


def shown(data):
    """Returns the text that `wasm-tools print` writes of a module, or nothing if it refuses the module."""
    with tempfile.TemporaryDirectory(prefix="wasmprinter-definitions-") as folder:
        return run([found("wasm-tools"), "print", write(os.path.join(folder, "module.wasm"), data)]).out


def fault(data):
    """Returns the message of `wasm-tools validate` for a module, or nothing if it accepts the module with all its features."""
    with tempfile.TemporaryDirectory(prefix="wasmprinter-definitions-") as folder:
        ran = run([found("wasm-tools"), "validate", "--features", "all", write(os.path.join(folder, "module.wasm"), data)])
    lines = [line.strip() for line in ran.err.decode("utf-8", "replace").splitlines()]
    return "" if ran.status == 0 else next((line.removeprefix("0: ") for line in lines if line.startswith("0: ")), ran.fault())


def pairs_of(item):
    """Returns the modules of an item with their pairs: its own text beside each, and the texts of the printers."""
    modules = assembled(item) if item.is_text else [Module(item.source, item.path, item.data, "the source")]
    own = [(it, [Pair(it, f"own text, {it.made_by}", item.data, True)] if item.is_text else []) for it in modules]
    return [(module, pairs + printed(module)) for module, pairs in own]


def digest(data):
    return hashlib.sha256(data).digest()
