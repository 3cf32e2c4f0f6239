"""Writes the cases of a packet as worked rows."""

HEAD = """-- Rows made by tools/definitions.sh.
use Rattle.std.specs.Prelude.{◌≡◌, ℕ, List, [], ◌∷◌, ◌++◌, codes, true, false, is_some, option_map, refl}
use Rattle.wasmprinter_spec.specs.Grammar.{input}
use Rattle.wasmprinter_spec.specs.Binary.{binary}
use Rattle.wasmprinter_spec.specs.Module.{Module, module_of}
use Rattle.wasmprinter_spec.specs.Read.{read}
use Rattle.wasmprinter_spec.proofs.Computing.{reading}

-- A text of `wasm2wat` has no custom sections.
abbrev without_customs : Module → Module
without_customs m = record m { customs = [] }

"""
ESCAPES = {'"': '\\"', "\\": "\\\\", "\n": "\\n", "\r": "\\r", "\t": "\\t"}

# What a case may state. `same` and `same_without_customs`: the text reads as the module of the bytes. `reads`, `unread`: the text is that of a
# module, or of none. `parses`, `refused`: the bytes encode a module, or none.
STATEMENTS = {
    "same": "read ({text}) ≡ option_map module_of (binary.parse (input 0 {bytes}))",
    "same_without_customs": "read ({text}) ≡ option_map without_customs (option_map module_of (binary.parse (input 0 {bytes})))",
    "reads": "is_some (read ({text})) ≡ true",
    "unread": "is_some (read ({text})) ≡ false",
    "parses": "is_some (binary.parse (input 0 {bytes})) ≡ true",
    "refused": "is_some (binary.parse (input 0 {bytes})) ≡ false",
}


class Case:
    """What is stated of a text, of bytes, or of both. `statements`: what is tried, in this order; `held` is the one that the prover accepted."""

    def __init__(self, label, statements, text=None, data=None):
        self.label, self.statements, self.text, self.data = label, statements, text, data
        self.held, self.tried, self.limit = None, 0, False

    def size(self):
        """Returns the number of bytes that the prover reads, as its time depends on it: a byte of a module costs less than one of a text."""
        return len(self.text or b"") + len(self.data or b"") // 2


def text_term(text):
    """Returns a term for the bytes of a text. All bytes except printable ASCII characters and white space are written as numbers.

    `codes` gives the code points of a string, which are its bytes only if it is ASCII.
    """
    parts, run = [], ""
    for byte in text:
        char = chr(byte)
        if char in ESCAPES or (char.isascii() and char.isprintable()):
            run += ESCAPES.get(char, char)
            continue
        parts += [f'codes "{run}" ++ '] if run else []
        parts.append(f"{byte} ∷ ")
        run = ""
    return "".join(parts) + (f'codes "{run}"' if run else "[]")


def bytes_term(data):
    return " ∷ ".join([*map(str, data), "[]"])


def packet(cases):
    """Returns a file with a row for each case, `row` with its position. The bytes of a module that several cases name are written once."""
    names, parts = {}, [HEAD]
    for at, case in enumerate(cases):
        if case.data is not None and case.data not in names:
            names[case.data] = f"bytes{len(names)}"
            parts.append(f"{names[case.data]} : List ℕ\n{names[case.data]} = {bytes_term(case.data)}\n\n")
        name = names.get(case.data, "")
        term = "" if case.text is None else text_term(case.text)
        statement = STATEMENTS[case.statements[case.tried]].format(text=term, bytes=name)
        parts.append(f"row{at} : {statement}\nunfolding reading {name}\nrow{at} = refl\n\n")
    return "".join(parts)
