"""Formats the tables in Markdown."""

import collections
import datetime
import os

from judged import judgement
from running import run, version
from tables import table

KINDS = {"text": "texts beside modules", "module": "modules", "malformed text": "texts called malformed", "malformed module": "modules called malformed"}
EXPECTED = {"text": ("same", "same_without_customs"), "module": ("parses",), "malformed text": ("unread",), "malformed module": ("refused",)}


def verdict(case):
    """Returns the verdict of a case: `agreed`, `scope`, `limit` or `disagreed`."""
    if case.held in EXPECTED[case.label.kind]:
        return "agreed"
    if case.limit:
        return "limit"
    return "scope" if case.held == "unread" and case.label.reasons else "disagreed"


def counts(cases):
    """Returns the cells of a row: the number of cases, and of each verdict."""
    found = collections.Counter(map(verdict, cases))
    return [len(cases), found["agreed"] or "-", found["scope"] or "-", found["limit"] or "-", found["disagreed"] or "-"]


HEADS = ["compared", "agreed", "out of scope", "over the limit of steps", "disagreed"]


def grouped(cases, key):
    """Returns the cases by a key, in the order in which the keys occur."""
    found = {}
    for case in cases:
        found.setdefault(key(case), []).append(case)
    return found


def total(cases, part):
    return f"{sum(len(getattr(it, part)) for it in cases):,}"


def texts_table(cases):
    """Returns the table of texts, by their source and maker."""
    lines = [[source, maker, total(its, "text"), *counts(its)] for (source, maker), its in grouped(cases, lambda it: (it.label.source, it.label.maker)).items()]
    lines.append(["**all**", "", total(cases, "text"), *counts(cases)])
    return table(["source of the module", "maker of the text", "bytes of text", *HEADS], lines)


def modules_table(cases, part):
    """Returns the table of modules, or of malformed texts or modules, by their source."""
    lines = [[source, total(its, part), *counts(its)] for source, its in grouped(cases, lambda it: it.label.source).items()]
    lines.append(["**all**", total(cases, part), *counts(cases)])
    return table(["source", "bytes", *HEADS], lines)


def scope_table(cases):
    """Returns the table of texts that are out of scope, by their forms that `read` does not cover."""
    found = grouped([it for it in cases if verdict(it) == "scope"], lambda it: tuple(sorted(it.label.reasons)))
    lines = []
    for reasons, its in sorted(found.items(), key=lambda pair: -len(pair[1])):
        makers = collections.Counter(it.label.maker.split(",")[0] for it in its)
        lines.append(["; ".join(reasons), len(its), ", ".join(f"{maker}: {count}" for maker, count in makers.items())])
    return table(["forms in the text", "texts", "makers"], lines) if lines else "None.\n"


def disagreed_table(cases):
    """Returns the table of cases that disagree, by their judgement."""
    found = grouped(cases, lambda it: (it.label.kind, it.label.maker, judgement(it)))
    lines = []
    for (kind, maker, why), its in found.items():
        smallest = min(its, key=lambda it: len(it.text or it.data))
        lines.append([kind, maker, why, len(its), os.path.basename(smallest.label.path), cases.index(smallest)])
    return table(["kind", "maker", "judgement", "cases", "smallest in", "its number in `disagreed`"], lines) if lines else "None.\n"


def left_table(left_out):
    """Returns the table of what was not compared."""
    return table(["source", "reason", "number"], [[source, reason, count] for (source, reason), count in sorted(left_out.items())]) if left_out else "None.\n"


def head(root):
    """Returns the head: the date, the commit and the versions."""
    commit = run(["git", "-C", root, "log", "-1", "--format=%h", "--", "crates/wasmprinter_spec"]).out.decode().strip()
    rattle = run(["rt", "version"]).out.decode("utf-8", "replace").strip().splitlines()
    tools = ", ".join(f"{name} {version(name)}" for name in ("wasm-tools", "wasm2wat", "wat2wasm"))
    return f"Date: {datetime.date.today():%Y-%m-%d}. Definitions of commit {commit}. Prover: {rattle[0] if rattle else 'unknown'}. Tools: {tools}.\n\n"


def whole(root, collected):
    """Returns all tables with their headings, and the cases that disagree."""
    by_kind = grouped(collected.cases, lambda it: it.label.kind)
    texts, modules = by_kind.get("text", []), by_kind.get("module", [])
    disagreed = [it for it in collected.cases if verdict(it) == "disagreed"]
    clear = [it for it in by_kind.get("malformed text", []) if it.label.reasons == set()]
    parts = [head(root), f"{len(modules):,} modules of {total(modules, 'data')} bytes, {len(texts):,} texts of {total(texts, 'text')} bytes.\n\n"]
    parts += ["### Texts beside modules\n\n", texts_table(texts), "\n### Texts out of scope\n\n", scope_table(texts)]
    parts += ["\n### Modules\n\n", modules_table(modules, "data")]
    parts += ["\n### Modules that a suite calls malformed\n\n", modules_table(by_kind.get("malformed module", []), "data")]
    parts += ["\n### Texts that a suite calls malformed\n\n", modules_table(by_kind.get("malformed text", []), "text")]
    parts += [f"\n{len(clear):,} of these have no form that `read` does not cover.\n\n"]
    parts += ["### What disagrees\n\n", disagreed_table(disagreed), "\n### Not compared\n\n", left_table(collected.left_out)]
    return "".join(parts), disagreed
