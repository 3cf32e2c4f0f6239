"""The blocks of code and of output in the documents, and the messages in the README's table."""

import re

from common.rows import rows_of

ROWS = "crates/check_rows/data/"
SOURCES = {
    "README.md": (ROWS + "modules_names.txt", ROWS + "fold_modules.txt", "bindings/c/example.c"),
    "docs/LIBRARY.md": ("crates/tests_modules/src/example.rt", "tools/program.sh"),
    "docs/WASM2TEXT.md": ("tools/wasm2text.sh",),
    "bindings/README.md": (
        "bindings/c/example.c",
        "bindings/c/preview.c",
        "bindings/c/color.c",
        "bindings/cpp/example.cpp",
        "bindings/rust/README.md",
        "bindings/python/README.md",
        "tools/packaging/CMakeLists.txt",
    ),
    "CONTRIBUTING.md": ("crates/wasmprinter_flat/src/index_immediates.rt", "crates/wasmprinter_custom/must-fail/identifier-is-the-raw-name.edit"),
}
DOC_EXAMPLES = "crates/tests_modules/src/doc_examples.rt"  # tests with the examples of documentation comments
MESSAGES = ("bindings/cases.txt", "bindings/c/test.c", "tools/program.sh", "crates/printwasm/src/program_tests.rt")  # tests with typed messages

PROVES = "proves, tests or builds, as the gate does"
INSTALLS = "needs or changes the user's folders. tools/packaging.sh is run by hand (docs/TESTING.md)"
RELEASES = "needs the proved library. tools/embed.sh, run by hand, compares what the archive's examples print"
STEP = "a step of the gate"
# Commands, each with the reason why no test compares its output
COMMANDS = {
    "(cd crates/printwasm && rt try --data m.wasm=/tmp/find.wasm -- m.wasm)": "a row has the same module and text",
    "(cd crates/printwasm && rt run -- /tmp/find.wasm)": PROVES,
    "install -D crates/printwasm/out/printwasm ~/.local/bin/printwasm": INSTALLS,
    "rt ci": PROVES,
    "sh tools/install.sh ~/.local": INSTALLS,
    "sh tools/install.sh build /tmp/built": PROVES,
    "sudo sh tools/install.sh install /tmp/built /usr/local": INSTALLS,
    "sh tools/release.sh /tmp/release /tmp/built": RELEASES,
    "sh tools/embed.sh /tmp/release/wasmprinter-*.tar.gz": RELEASES,
    "export PKG_CONFIG_PATH=~/.local/lib/pkgconfig": INSTALLS,
    "cc bindings/c/example.c $(pkg-config --cflags --libs wasmprinter) -Wl,-rpath,$HOME/.local/lib -o example": INSTALLS,
    "rt try --test": PROVES,
    "rt check": PROVES,
    "rt check --only wasmprinter_flat::index_immediates::write_default_index": PROVES,
    "rt fmt": "changes files",
    "python3 tools/edits.py": STEP,
    "python3 tools/recipes.py": STEP,
    "python3 tools/recursion.py": STEP,
    "python3 tools/documents.py": STEP,
    "rt must-fail NAME": PROVES,
    "rt ci NAME": PROVES,
}
SHELL = re.compile(r"(\(cd|sh|rt|cc|python3|export|install|printf|time) ")  # the start of a block of commands


def end_of(lines, start, is_in):
    """Returns the index after the lines from a start that satisfy a condition."""
    return next((at for at in range(start, len(lines)) if not is_in(lines[at])), len(lines))


def blocks(lines, with_recipes=False):
    """Returns the blocks of a page, indented by four spaces or between fences: the number of the first line, and the lines."""
    found, at = [], 0
    while at < len(lines):
        end = at + 1
        if lines[at].strip().startswith("```"):
            end = end_of(lines, at + 1, lambda line: line.strip() != "```") + 1
            if with_recipes or lines[at].strip() != "```recipe":
                found.append((at + 2, lines[at + 1 : end - 1]))
        elif lines[at].startswith("    ") and not lines[at - 1].strip():
            end = end_of(lines, at, lambda line: line.startswith("    ") or not line.strip())
            end -= next(count for count in range(end) if lines[end - 1 - count].strip())
            found.append((at + 1, lines[at:end]))
        at = end
    return found


def even(lines):
    """Returns lines without their common indentation and without spaces at their ends."""
    indents = [len(line) - len(line.lstrip()) for line in lines if line.strip()]
    return [line[min(indents, default=0) :].rstrip() for line in lines]


def side_by_side(number, lines):
    """Returns the two texts of a block with two modules in columns, or the block alone."""
    column = lines[0].find("(module", lines[0].find("(module") + 1)
    if column < 0:
        return [(number, lines)]
    return [(number, [line[:column] for line in lines]), (number, even([line[column:] for line in lines if line[column:].strip()]))]


def imports(lines):
    """Returns the paths that `use` lines import."""
    found = set()
    for path in re.findall(r"^\s*use ([^;]*);", "\n".join(lines), re.MULTILINE):
        start, _, names = path.partition("{")
        found |= {start + name.strip() for name in names.rstrip("}").split(",")}
    return found


def source_lines(tree, path):
    """Returns the numbered lines of a file that a block may repeat: in a file of rows what is after `|`, in code no attributes for the prover."""
    lines = [line.partition("|")[2] if path.startswith(ROWS) and "|" in line else line for line in tree.lines(path)]
    return [(number, line) for number, line in enumerate(lines, 1) if not line.lstrip().startswith("#[tactic(")]


def nearest(lines, source):
    """Returns where in the source most lines of a block are, and how many lines of the block equal those there before the first that differs."""
    target = [line.strip() for line in lines]
    starts = {at - i for i, line in enumerate(target) if line for at, other in enumerate(source) if other.strip() == line and at >= i}
    start = max(sorted(starts), key=lambda at: sum(a == b.strip() for a, b in zip(target, source[at:])), default=0)
    equal = [a == b for a, b in zip(even(lines), even(source[start : start + len(lines)]))] + [False]
    return start, equal.index(False)


def code_faults(tree, page, number, lines):
    """Returns the first difference between a block and the file of the page that is most like it."""
    head = end_of(lines, 0, lambda line: not line.strip() or line.startswith("use "))
    number, used, lines = number + head, imports(lines[:head]), lines[head:]
    best = (-1, "")
    for path in SOURCES[page]:
        numbers, source = zip(*source_lines(tree, path))
        start, same = nearest(lines, source)
        if same == len(lines):
            return [f"{page}:{number}: not imported in {path}: {name}" for name in sorted(used - imports(source))]
        at = min(start + same, len(source) - 1)
        best = max(best, (same, f"{page}:{number + same}: `{lines[same].strip()}`, but {path}:{numbers[at]} has `{source[at].strip()}`"))
    return [best[1]]


def file_of(tree, page, lines):
    """Returns the first file of a page that has all lines of a block and is in the tree, or `None`."""
    for path in SOURCES[page]:
        if path in tree.known and nearest(lines, [line for _, line in source_lines(tree, path)])[1] == len(lines):
            return path
    return None


def rows(tree, path):
    """Returns the texts of the rows of a file, each with the bytes of its module."""
    return [("\n".join(row.lines), row.wasm) for row in rows_of(tree.text(path))]


def command_faults(tree, page, number, lines, shown):
    """Returns the lines of a block that are neither commands of the list nor write the module of all the texts that the page shows."""
    found = []
    for at, line in enumerate(lines, number):
        command = re.split(r"\s+# ", line.strip())[0]
        if written := re.fullmatch(r"printf '([^']*)' >\S+", command):
            module = re.sub(rb"\\([0-7]{1,3})", lambda octal: bytes([int(octal.group(1), 8)]), written.group(1).encode())
            texts = [text for path in SOURCES[page] if path.startswith(ROWS) for text, wasm in rows(tree, path) if wasm == module]
            wrong = sorted({first for first, text in shown if text not in texts})
            found += [f"{page}:{at}: no row has both the bytes that this line writes and the text at line {first}" for first in wrong]
        elif command and command not in COMMANDS:
            found.append(f"{page}:{at}: a command that is not in COMMANDS of tools/documents/blocks.py: {command}")
    return found


def block_faults(tree, page):
    """Returns the faults of the blocks of a page, and the number of blocks."""
    parts = [part for number, lines in blocks(tree.lines(page)) for part in side_by_side(number, even(lines))]
    shown = [(number, "\n".join(even(lines))) for number, lines in parts if lines[0].startswith("(module")]
    found = []
    for number, lines in parts:
        found += command_faults(tree, page, number, lines, shown) if SHELL.match(lines[0]) else code_faults(tree, page, number, lines)
    return found, len(parts)


def comment_blocks(lines):
    """Returns the blocks between fences in the documentation comments of a source file: the number of the first line, and the lines."""
    texts = [line.strip()[3:].removeprefix(" ") if line.strip().startswith("///") else "" for line in lines]
    return [(number, block) for number, block in blocks(texts) if texts[number - 2].strip() == "```"]


def example_faults(tree, path):
    """Returns the examples in the documentation comments of a source file that no test has, and the number of examples."""
    found, source = [], source_lines(tree, DOC_EXAMPLES)
    examples = comment_blocks(tree.lines(path))
    for number, lines in examples:
        start, same = nearest(lines, [line for _, line in source])
        if same < len(lines):
            found.append(f"{path}:{number + same}: `{lines[same].strip()}`, but {DOC_EXAMPLES}:{source[start][0] + same} differs")
    return found, len(examples)


def message_faults(tree, page):
    """Returns the messages of README's table, and its usage line, that no test has, and the number of messages."""
    table = tree.first(r"^\| Message \|.*\n(?:\|.*\n)*", page)
    messages = [message for line in table.split("\n") for message in re.findall(r"`([^`]*)`", line.split(" | ")[0])]
    messages.append(tree.first(r"^`(printwasm \[.*?)`", page))
    typed = "\n".join(tree.text(path) for path in MESSAGES)
    found = []
    for message in messages:
        if not re.search(re.escape(message).replace(re.escape(".."), "[^\"\n]*"), typed):
            line = next(number for number, line in enumerate(tree.lines(page), 1) if f"`{message}`" in line)
            found.append(f"{page}:{line}: no test has the message `{message}`")
    return found, len(messages)
