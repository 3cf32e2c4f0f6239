"""The modules of the crates, and the names that the paths in Rust code denote."""

import re

NOT_CODE = re.compile(
    r"""(?P<comment>//[^\n]*|/\*.*?\*/)|(?P<string>b?r(?P<hashes>#*)".*?"(?P=hashes)|b?"(?:\\.|[^"\\])*"|b?'(?:\\.[^'\n]*|[^'\\\n])')""", re.DOTALL
)
USE = re.compile(r"(?<!ghost )\buse\s+([^;]*);")
USE_TOKEN = re.compile(r"[A-Za-z_]\w*|[{},*]")
PATH = re.compile(r"(?<![\w.])(?<!::)[A-Za-z_]\w*(?:\s*::\s*[A-Za-z_]\w*)+")
NAME = re.compile(r"[A-Za-z_]\w*")
INLINE = re.compile(r"\bmod\s+(\w+)\s*\{")
DECLARED = re.compile(r"\bmod\s+(\w+)\s*;")
ITEM = re.compile(r"\b(?:fn|struct|enum|union|trait|const|static|type|mod)\s+(\w+)")
IMPL = re.compile(r"\bimpl\b\s*(?:<[^{;]*?>\s+)?(?:\w+::)*(\w+)(?:<[^{;]*?>)?\s+for\s+(?:\w+::)*(\w+)")


def code_of(text):
    """Returns the text with comments and strings replaced by spaces, with all places kept."""
    return NOT_CODE.sub(lambda match: re.sub(r"[^\n]", " ", match[0]), text)


def comments_of(text):
    """Returns the spans of the comments."""
    return [match.span() for match in NOT_CODE.finditer(text) if match["comment"]]


def end_of_block(code, start):
    """Returns the place after the brace that closes the block whose opening brace is before `start`."""
    depth = 1
    for match in re.compile(r"[{}]").finditer(code, start):
        depth += 1 if match[0] == "{" else -1
        if not depth:
            return match.end()
    return len(code)


def at_top(code):
    """Returns the code with everything in braces replaced by spaces."""
    shown, depth = [], 0
    for character in code:
        depth += character == "{"
        shown.append(character if not depth or character == "\n" else " ")
        depth -= character == "}"
    return "".join(shown)


def use_paths(code, start, end):
    """Returns the paths of the tree of a `use`: their names with places, and the alias, `*` for all items, or `None`."""
    found, prefixes, path, alias = [], [], [], None
    for match in [*USE_TOKEN.finditer(code, start, end), None]:
        token = match[0] if match else ","
        if token in ",}" and path != (prefixes[-1] if prefixes else []):
            found.append((path, alias))
        if token == "{":
            prefixes.append(path)
        elif token in ",}":
            if token == "}" and prefixes:
                prefixes.pop()
            path, alias = (list(prefixes[-1]) if prefixes else []), None
        elif token == "as":
            alias = "as"
        elif token == "*" or alias == "as":
            alias = token
            path = [*path, (None, None)] if token == "*" else path
        else:
            path = [*path, (token, match.start())]
    return [([name for name in path if name[0]], alias) for path, alias in found]


class Module:
    """A module: its path from the crate, its place in its file, the names that it declares, and those that it imports."""

    def __init__(self, path, file, start, end):
        self.path, self.file, self.start, self.end = path, file, start, end
        self.items, self.imports, self.globs = set(), {}, []

    def read(self, text_code):
        """Reads the declared items, and the imports of the whole module, those within functions too."""
        inside = text_code[self.start : self.end]
        self.items = set(ITEM.findall(at_top(inside)))
        for match in USE.finditer(text_code, self.start, self.end):
            for path, alias in use_paths(text_code, match.start(1), match.end(1)):
                names = [name for name, _ in path]
                if alias == "*":
                    self.globs.append(names)
                elif names:
                    names = names[:-1] if names[-1] == "self" and len(names) > 1 else names
                    self.imports[alias or names[-1]] = names


def path_of_file(path):
    """Returns the path of the module of a file `crates/CRATE/src/..`, or `None`."""
    match = re.fullmatch(r"crates/(\w+)/src/(.*)\.rt", path)
    return match and (match[1], *(() if match[2] in ("lib", "main") else match[2].split("/")))


def modules_of(path, code):
    """Returns the modules of a file, the inner ones last."""
    found = [Module(path_of_file(path), path, 0, len(code))]
    for match in INLINE.finditer(code):
        outer = next(module for module in reversed(found) if module.start <= match.start() < module.end)
        found.append(Module((*outer.path, match[1]), path, match.end(), end_of_block(code, match.end())))
    for module in found:
        module.read(code)
    return found


class Modules:
    """All modules of the crates."""

    def __init__(self, repository):
        self.crates = repository.crates
        self.by_path = {}
        for path in repository.names(r"^crates/\w+/src/.*\.rt$"):
            self.add(path, code_of(repository.text(path)))

    def add(self, path, code):
        """Adds the modules of a file, in place of those that it had, and returns them."""
        found = modules_of(path, code)
        self.by_path |= {module.path: module for module in found}
        return found

    def child(self, module, name, seen=()):
        """Returns the module that a name denotes in a module, or `None`."""
        if (module, name) in seen or module not in self.by_path:
            return None
        if name in ("self", "super"):
            return module if name == "self" else module[:-1] or None
        if (*module, name) in self.by_path:
            return (*module, name)
        seen = (*seen, (module, name))
        here = self.by_path[module]
        if name in here.imports:
            return (self.denoted(module, here.imports[name], seen) or [None])[-1]
        found = [self.denoted(module, names, seen) for names in here.globs]
        return next((inner for path in found if path and path[-1] and (inner := self.child(path[-1], name, seen))), None)

    def denoted(self, module, names, seen=()):
        """Returns for each name of a path the module that the path up to it denotes, or `None`."""
        found = []
        for at, name in enumerate(names):
            if at:
                found.append(found[-1] and self.child(found[-1], name, seen))
            elif name == "crate":
                found.append(module[:1])
            else:
                found.append(self.child(module, name, seen) or ((name,) if name in self.crates else None))
        return found

    def places(self, path, text, target):
        """Returns the places of the names in the code of a file that denote the module `target`, with its own name."""
        code, found = code_of(text), set()
        modules = self.add(path, code)

        def look(names):
            module = next(module for module in reversed(modules) if module.start <= names[0][1] < module.end)
            for (name, place), denoted in zip(names, self.denoted(module.path, [name for name, _ in names])):
                if denoted == target and name == target[-1]:
                    found.add(place)

        uses = [match.span(1) for match in USE.finditer(code)]
        for start, end in uses:
            for names, _ in use_paths(code, start, end):
                if names:
                    look(names)
        for match in PATH.finditer(code):
            if not any(start <= match.start() < end for start, end in uses):
                look([(name[0], name.start()) for name in NAME.finditer(code, *match.span())])
        for match in DECLARED.finditer(code):
            look([("self", match.start(1)), (match[1], match.start(1))])
        return found
