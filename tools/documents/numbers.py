"""The numbers in the documents that can be computed from the repository."""

import fnmatch
import re
import subprocess

import count
import recursion
from documents.blocks import ROWS
from growth.code_shapes import CODE_SHAPES
from growth.module_shapes import MODULE_SHAPES

HISTORY = ("CHANGELOG.md", "docs/PERF.md", "bench/slow-inputs.md", "docs/data/*")  # pages about earlier states
PROGRAM, WASM2TEXT, HEADER = "tools/program.sh", "tools/wasm2text.sh", "include/wasmprinter.h"
WORDS = "two three four five six seven eight nine ten eleven twelve thirteen fourteen fifteen sixteen".split()
NUMBER = rf"(?P<number>\d[\d,]*(?<!,)|(?i:{'|'.join(WORDS)}))"

# Patterns of sentences about the statuses of the library for C, by their names in the header
STATUSES = {
    "COMPONENT": ("status is # exactly if the bytes are marked as a component",),
    "DYLINK_SUBSECTION": (r"^\| #, `dylink.0` \|",),
    "UNREADABLE": (r"^Status # \(the file",),
    "TOO_LONG": (r"^\| #, too long",),
    "MEMORY": (r"^\| #, out of memory", r"for C \(status #\)", "Status # may also", r"the status \(#\) and \[what it leaves"),
    "INVALID_INDENT": (r"^\| #, the indent", "It is # exactly if the indent", "status except #", "statuses 0 and #"),
    "UNKNOWN_OPTION": (r"^\| #, unknown options", "status is # exactly if the flags", r"status is not # \|", "older library returns status #"),
}


def tests(tree, crate="*"):
    """Returns the number of tests of a crate, or of all."""
    return len(tree.found(r"^\s*#\[test\]", f"crates/{crate}/src/*.rt"))


def names_of_refusals(tree):
    """Returns the number of names that tools/failing_allocations.sh tries."""
    function = tree.first(r"^names\(\) \{[^\0]*?^\}", "tools/failing_allocations.sh")
    return len(subprocess.run(["sh", "-c", function + "\nnames"], capture_output=True, text=True, check=True).stdout.splitlines())


def of_checks(tree):
    """Returns the numbers of tests, mutants and shapes."""
    gate, others = len(tree.matching("crates/*/must-fail/*.edit")), len(tree.matching("crates/*/mutants/*.edit"))
    runs, others_runs = (len(tree.found(r"^(?:\w+_case|case_of|started|as_user) ", script)) for script in (PROGRAM, WASM2TEXT))
    refused, shapes = len(tree.lines("crates/failing_allocations/stdout")) - 1, len({**MODULE_SHAPES, **CODE_SHAPES})
    return [
        ("# mutants, deliberately", gate),
        (r"^\| \[Mutants\]\S* \| #, and", gate),
        (r"^\| \[Mutants\].*, and # others", others),
        ("# files of `wasmprinter_spec` that the checker", len(tree.matching("crates/wasmprinter_spec/proofs/*Rows.antt"))),
        (r"# tests; \d", tests(tree)),
        (r"^\| ((?:`\w+`(?:, )?)+) \| # \|", lambda match: sum(tests(tree, crate) for crate in re.findall(r"\w+", match.group(1)))),
        ("# runs of `printwasm`", runs),
        ("runs of `printwasm`, # of `wasm2text`", others_runs),
        ("# shapes, ", refused),
        (r"for # shapes \(", refused),
        ("(?:, |for )# names", names_of_refusals(tree)),
        (r"# shapes of modules \|", shapes),
        ("all # shapes", shapes),
        ("0 to # bytes", tree.first(r"TEXT_LENGTHS: .*\[\(0, (\d+)\)", "crates/printwasm/src/source_sink_tests.rt")),
        ("an indent of # bytes and", len(tree.first('^#define INDENT "( *)"', "bindings/c/memory.c"))),
    ]


def of_rows(tree):
    """Returns the numbers of rows and of their files."""
    rows, bindings = len(tree.found("^(?:row|operator|node) ", ROWS + "*.txt")), len(tree.found("^case ", "bindings/cases.txt"))
    return [
        (r"^\| \[Rows of files\]\S* \| # modules; ", rows),
        ("functions for # rows", rows),
        ("rows of # files", len(tree.matching(ROWS + "*.txt"))),
        ("`check_rows` has # functions", len(tree.found(r"^ *(?:pub(?:\(crate\))? )?fn ", "crates/check_rows/src/*.rt"))),
        (r"^\| \[Rows of files\].*; # in", bindings),
    ]


def of_crates(tree):
    """Returns the numbers of crates, functions and files."""
    depth = max(map(int, re.findall(r": (\d+) calls", tree.section("docs/GUARANTEES.md", "Depth of the stack"))))
    usage = [path for name in ("crates/printwasm/*.antt", "crates/printwasm/*.rt", PROGRAM) for path in tree.matching(name)]
    print_contract = tree.first(r"^    pub fn print<[^\0]*?^    \{", "crates/wasmprinter/src/config.rt")
    options = len(re.findall(r"\[--", tree.first("^echo '(usage: .*)' >err", PROGRAM)))
    return [
        ("of (?:the )?# crates", len(tree.crates)),
        ("# example programs", len([crate for crate in tree.crates if crate.startswith("example_")]) + 1),  # with wasm2html
        (r"\[# functions\]\(docs/GUARANTEES.md.depth-of-the-stack\)", len(recursion.functions())),
        ("each at most # deep", depth),
        ("each of the # clauses", len(re.findall(r"^ +ensures ", print_contract, re.MULTILINE))),
        ("the # laws of `Output`", len(tree.found(r"^ +ghost \w+: \{ \w+ \w[^→\n]*\};", "crates/wasmprinter_print/src/layout_output_trait.rt"))),
        ("the # sets of", 2**options),
        ("sets of (?:its )?# options", options),
        (r"usage line \(typed in # files", sum("usage: printwasm [" in tree.text(path) for path in usage)),
    ]


def of_library(tree):
    """Returns the numbers of the library for C: its functions, its version and its statuses."""
    statuses = dict(tree.found(r"WASMPRINTER_(\w+) = (\d+)", HEADER))
    return [
        ("(?:its|the|has) # functions(?: only|, )", len(tree.found(r"^(?!WASMPRINTER_INLINE)\w.* wasmprinter_\w+\(", HEADER))),
        ("header also has # inline functions", len(tree.found(r"^WASMPRINTER_INLINE .*wasmprinter_\w+\(", HEADER))),
        (r"`wasmprinter_version` \| \| The result is #", tree.first(r"WASMPRINTER_VERSION (\d+)", HEADER)),
        (r"`wasmprinter_revision` \| \| The result is #", tree.first(r"WASMPRINTER_REVISION (\d+)", HEADER)),
    ] + [(pattern, statuses[name]) for name, patterns in STATUSES.items() for pattern in patterns]


def items(tree, page, heading):
    """Returns the number of items in the numbered list of a section."""
    return len(re.findall(r"^\d+\. ", tree.section(page, heading), re.MULTILINE))


def of_definitions(tree):
    """Returns the numbers that definitions give: opcodes, limits, levels and colors."""
    specs = "crates/wasmprinter_spec/specs/*.antt"
    words = tree.found(r'Some\(\("([^"]+)"', "crates/wasmprinter_ops/src/opcode_tables/*.rt")
    functions, levels = tree.defined("most_functions", specs), tree.defined("most_indents", specs)
    colors, styles = tree.first(r"^colors = (.*)∷ \[\]", specs).count("∷") + 1, len(tree.found(r"^  \w+ : Style$", specs))
    return [
        (r"(?=\d)# opcodes", len(words)),
        (r"number of opcodes \(#\)", len(words)),
        (r"# words of the \d", len(set(words))),
        (r"of words \(#:", len(set(words))),
        (r"(?:more than|[Aa]t most|over) #`? locals", tree.defined("most_locals", specs)),
        ("functions, more than #`", functions),
        ("(?:defines|section with) more than # functions", functions),
        ("locals in a function and # functions", functions),
        ("more than # hints", tree.defined("MOST_HINTS", "crates/wasmprinter_custom/src/*.rt")),
        (r"(?:\(|to |for |of )# levels", levels),
        ("`SPACES`, # characters", 2 * levels),
        ("the # sequences need", 2 + 2 * colors),
        ("the # ANSI escape sequences,", 2 + 2 * colors),
        ("There are # colors", colors),
        ("printer's # styles", styles - 1),  # without the one that ends a style
        (r"\[# conditions\]\(", items(tree, "docs/GUARANTEES.md", "When a text reads back")),
        (r"\[# conditions\]\(", items(tree, "README.md", "What reads back")),
    ]


def of_sizes(tree):
    """Returns the numbers of files, definitions and lines in docs/DEFINITIONS.md, as `count` counts them."""
    table = [line for path in tree.matching("crates/wasmprinter_spec/specs/Table/*.antt") for line in count.code_lines(tree.text(path))]
    found = [("Some # of these lines are the table of operators", round(len(table), -1))]
    for what, roots in count.ROOTS:
        files = count.cited(roots)
        counts = [count.counted(count.code_lines(count.read(name))) for name in files]
        values = [len(files)] + [sum(counted[key] for counted in counts) for key in count.COUNTS]
        found += [(rf"^\| {re.escape(what)}" + r" \| [\d,]+" * column + r" \| # \|", value) for column, value in enumerate(values)]
    return found


def numbers(tree):
    """Returns what is checked: patterns, in which `#` is the number, each with the number or with a function of the match that returns it."""
    return of_checks(tree) + of_rows(tree) + of_crates(tree) + of_library(tree) + of_definitions(tree) + of_sizes(tree)


def value_of(number):
    """Returns the value of a number in digits or in words."""
    return WORDS.index(number.lower()) + 2 if number.lower() in WORDS else int(number.replace(",", ""))


def matches(tree, pattern):
    """Returns where pages about the present state have a pattern: the page and the match."""
    expression = re.compile(pattern.replace("#", NUMBER), re.MULTILINE)
    pages = [page for page in tree.pages if not any(fnmatch.fnmatch(page, name) for name in HISTORY)]
    return [(page, match) for page in pages for match in expression.finditer(tree.text(page))]


def number_faults(tree, table):
    """Returns the numbers that differ from those of a table, by default of `numbers`, and the patterns that no page has. Also counts the numbers."""
    found, checked = [], 0
    for pattern, value in table or numbers(tree):
        places = matches(tree, pattern)
        checked += len(places)
        for page, match in places:
            expected = int(value(match) if callable(value) else value)
            if value_of(match["number"]) != expected:
                line = tree.text(page).count("\n", 0, match.start("number")) + 1
                found.append(f"{page}:{line}: `{match['number']}` in `{match.group()}`, but the repository has {expected:,}")
        if not places:
            found.append(f"tools/documents/numbers.py: no page has the pattern {pattern}")
    return found, checked
