"""main.py ROOT WORK [FOLDER..]: compares the definitions with the tools of others in the prover, and prints the tables.

tools/definitions.sh calls it and documents it.
"""

import multiprocessing
import os
import sys

from prover import Scratch, control, prove
from scope import scope_reasons
from report import whole
from rows import Case
from running import limited
from sources import all_items
from texts import digest, pairs_of
from wasm import MAGIC

BUDGET = int(os.environ.get("BUDGET_KB", "500")) * 1000  # bytes of text of one source
TEXT_LIMIT = int(os.environ.get("TEXT_LIMIT", "30000"))  # bytes of one text: larger ones come near the prover's limit of steps
MODULE_LIMIT = 6000  # bytes of one module, for the same reason
CHUNK = 100  # items that are passed to the tools at once
PRINTED = 2  # of the four printed texts of a module, those that are compared: flat by one tool and folded by the other, in turn


class Collected:
    """The cases of all sources, and how many items were left out, by the reason."""

    def __init__(self):
        self.cases, self.left_out, self.seen = [], {}, set()

    def is_new(self, *parts):
        """Reports whether these bytes occur for the first time."""
        key = tuple(part if isinstance(part, str) else digest(part) for part in parts)
        is_new = key not in self.seen
        self.seen.add(key)
        return is_new

    def leave_out(self, source, reason):
        self.left_out[(source, reason)] = self.left_out.get((source, reason), 0) + 1


class Label:
    """What a case is about: its kind (`text`, `module`, `malformed text`, `malformed module`), its source, the maker of its text, and its file.

    `reasons`: the forms of the text that `read` does not cover. `message`: what the suite says of malformed texts and modules.
    """

    def __init__(self, kind, source, maker, path, reasons=None, message=""):
        self.kind, self.source, self.maker, self.path, self.reasons, self.message = kind, source, maker, path, reasons, message


def pair_case(pair):
    """Returns the case of a text beside its module. A text with a form that is not covered is tried as unread first."""
    reasons = scope_reasons(pair.text)
    same = "same" if pair.keeps_customs else "same_without_customs"
    order = (same, "unread", "reads") if reasons == set() else ("unread", same, "reads")
    label = Label("text", pair.module.source, pair.name, pair.module.path, reasons)
    return Case(label, order, pair.text, pair.module.data)


def add_malformed(collected, item):
    """Adds the case of a text or a module that its suite calls malformed."""
    if item.is_text:
        label = Label("malformed text", item.source, "suite", item.path, scope_reasons(item.data), item.message)
        collected.cases.append(Case(label, ("unread", "reads"), text=item.data))
    else:
        label = Label("malformed module", item.source, "suite", item.path, message=item.message)
        collected.cases.append(Case(label, ("refused", "parses"), data=item.data))


def chosen(pairs, count):
    """Returns the own text of a module, and two of the printed texts by turns: flat by one tool, folded by the other."""
    own = [it for it in pairs if it.name.startswith("own")]
    rest = [it for it in pairs if not it.name.startswith("own")]
    turn = [it for it in rest if ("folded" in it.name) == (it.name.startswith("wasm2wat") == (count % PRINTED == 0))]
    return own + turn


def add_module(collected, module, pairs, count):
    """Adds the cases of a module and of its texts. Returns the number of bytes of the texts."""
    if len(module.data) > MODULE_LIMIT:
        collected.leave_out(module.source, f"module of over {MODULE_LIMIT:,} bytes")
        return 0
    kept = [it for it in chosen(pairs, count) if collected.is_new("pair", it.text, module.data)]
    for it in [it for it in kept if len(it.text) > TEXT_LIMIT]:
        collected.leave_out(module.source, f"text of over {TEXT_LIMIT:,} bytes, {it.name}")
        kept.remove(it)
    if kept and collected.is_new("module", module.data):
        collected.cases.append(Case(Label("module", module.source, module.made_by, module.path), ("parses", "refused"), data=module.data))
    collected.cases += [pair_case(it) for it in kept]
    return sum(len(it.text) for it in kept)


def add_item(collected, item, modules, count):
    """Adds the cases of one item: of its modules, or, if both assemblers refuse it and its suite expects an error, of a malformed text.

    Returns the number of bytes of the texts.
    """
    modules = [(module, pairs) for module, pairs in modules if module.data[:8] == MAGIC]
    if not modules and item.expects_error:
        item.message = "refused by both assemblers, without validating"
        add_malformed(collected, item)
    elif not modules:
        collected.leave_out(item.source, "refused by both assemblers" if item.is_text else "not the preamble of a module")
    elif not any(pairs for _, pairs in modules):
        collected.leave_out(item.source, "refused by both printers")
    return sum(add_module(collected, module, pairs, count) for module, pairs in modules if pairs)


def collect_source(collected, pool, source, items):
    """Adds the cases of one source, the smallest items first, up to BUDGET bytes of text."""
    size, reason = 0, f"past {BUDGET // 1000} kB of text"
    items = sorted((it for it in items if collected.is_new("item", it.data, str(it.is_text))), key=lambda it: len(it.data))
    for it in [it for it in items if it.message is not None]:
        add_malformed(collected, it)
    items = [it for it in items if it.message is None]
    for at in range(0, len(items), CHUNK):
        chunk = items[at:at + CHUNK]
        results = pool.map(pairs_of, chunk) if size <= BUDGET else [None] * len(chunk)
        for count, (item, modules) in enumerate(zip(chunk, results)):
            if size > BUDGET:
                collected.leave_out(source, reason)
            else:
                size += add_item(collected, item, modules, at + count)


def collected_cases(work, folders):
    """Returns the cases of all sources."""
    collected, sources = Collected(), {}
    for item in all_items(work, folders):
        sources.setdefault(item.source, []).append(item)
    only = os.environ.get("ONLY", "")
    with multiprocessing.Pool(int(os.environ.get("JOBS", os.cpu_count() or 1)), limited) as pool:
        for source, items in sources.items():
            if only in source:
                collect_source(collected, pool, source, items)
                print(f"definitions: {source}: {len(collected.cases)} cases so far", file=sys.stderr, flush=True)
    return collected


def mark_unparsed(cases):
    """Takes out of scope the texts of modules that do not parse."""
    parsed = {it.data for it in cases if it.label.kind == "module" and it.held == "parses"}
    for case in cases:
        if case.label.kind == "text" and case.data not in parsed:
            case.held, case.label.reasons = "unread", {"the module does not parse (see below)"}


def keep_disagreed(work, cases):
    """Writes the text and the bytes of each case that disagrees to the folder `disagreed`."""
    folder = os.path.join(work, "disagreed")
    os.makedirs(folder, exist_ok=True)
    for name in os.listdir(folder):
        os.remove(os.path.join(folder, name))
    for at, case in enumerate(cases):
        for ending, content in ((".wat", case.text), (".wasm", case.data)):
            if content is not None:
                with open(os.path.join(folder, f"{at}{ending}"), "wb") as file:
                    file.write(content)


def main(root, work, *folders):
    collected = collected_cases(work, folders)
    texts = [it for it in collected.cases if it.label.kind == "text" and it.statements[0] == "same"]
    scratch = Scratch(root, os.path.join(work, "scratch"))
    if len(texts) > 1:
        control(scratch, texts[0], texts[-1])
    prove(scratch, collected.cases)
    mark_unparsed(collected.cases)
    text, disagreed = whole(root, collected)
    keep_disagreed(work, disagreed)
    with open(os.path.join(work, "tables.md"), "w", encoding="utf-8") as file:
        file.write(text)
    print(text, end="")


if __name__ == "__main__":
    main(*sys.argv[1:])
