#!/usr/bin/env python3
"""Lists the functions of the library and of the programs that call themselves, directly or through others.

The toolchain accepts such a function only with a measure, a number that decreases from call to call. The measure is a definition `decreases-NAME`
in a folder of `proofs` whose name begins with `+`, except if the function goes down a value of a type that contains itself. So this script lists

- the functions with such a definition, in the proofs of crates/wasmprinter*, crates/printwasm and crates/wasm2text;
- the types of these crates that contain themselves, also through others: a type contains each type whose name occurs in its fields.

Prints the functions. The status is 1 if docs/GUARANTEES.md has other functions in its section "Depth of the stack", or if a type contains itself.
"""

import pathlib
import re
import sys

ROOT = pathlib.Path(__file__).resolve().parent.parent
PAGE = ROOT / "docs/GUARANTEES.md"
SECTION = "### Depth of the stack\n"

MEASURE = re.compile(r"^abbrev pub decreases-(\S+) :", re.MULTILINE)
PATH = re.compile(r"`(\w+(?:::\w+)+)`")
TYPE = re.compile(r"^ *(?:pub(?:\([^)]*\))? )?(?:struct|enum) (\w+)([^;{]*(?:;|\{.*?^ *\}))", re.MULTILINE | re.DOTALL)
COMMENT = re.compile(r"//[^\n]*|ghost [^\n]*")
VARIANT = re.compile(r"^ *\w+(?=[({,])", re.MULTILINE)


def crates():
    """Returns the folders of the crates."""
    return sorted([*ROOT.glob("crates/wasmprinter*"), ROOT / "crates/printwasm", ROOT / "crates/wasm2text"])


def functions():
    """Returns the paths of the functions that have a measure."""
    found = set()
    for crate in crates():
        for file in crate.glob("proofs/**/+*/*.antt"):
            module = [crate.name, *file.parent.parent.relative_to(crate / "proofs").parts]
            found |= {"::".join([*module, name]) for name in MEASURE.findall(file.read_text(encoding="utf-8"))}
    return found


def types_in_themselves():
    """Returns the names of the types that contain themselves."""
    fields = {}
    for crate in crates():
        for file in crate.glob("src/**/*.rt"):
            for name, text in TYPE.findall(COMMENT.sub("", file.read_text(encoding="utf-8"))):
                fields.setdefault(name, set()).update(re.findall(r"\w+", VARIANT.sub("", text)))
    contains = {name: words & set(fields) for name, words in fields.items()}
    for _ in contains:
        contains = {name: names.union(*(contains[other] for other in names)) for name, names in contains.items()}
    return {name for name, names in contains.items() if name in names}


def main():
    found = functions()
    for function in sorted(found):
        print(function)
    text = PAGE.read_text(encoding="utf-8")
    listed = set(PATH.findall(text.split(SECTION)[1].split("\n#")[0])) if SECTION in text else set()
    faults = [f"{function}: calls itself, and is not in {PAGE.name}" for function in sorted(found - listed)]
    faults += [f"{function}: is in {PAGE.name}, and has no measure" for function in sorted(listed - found)]
    faults += [f"{name}: this type contains itself" for name in sorted(types_in_themselves())]
    for fault in faults:
        print(f"recursion: {fault}", file=sys.stderr)
    return 1 if faults else 0


if __name__ == "__main__":
    sys.exit(main())
