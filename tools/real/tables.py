"""Formats the tables in Markdown."""

import collections

from reasons import UNEXPLAINED, general, note_reason, reason

WORDS = ("same", "normal", "equivalent", "alike", "differs", "unknown", "refused")
JUDGED = {
    "valid": "`wasm-tools validate` accepts it",
    "printable": "`wasm-tools validate` rejects it, `wasm-tools print` prints it",
    "refused": "`wasm-tools print` refuses it",
    "": "not judged",
}


def table(heads, lines):
    """Returns a table with these headings and rows."""
    rows_of_cells = [[str(cell).replace("|", "\\|") for cell in cells] for cells in [heads, ["---"] * len(heads), *lines]]
    return "\n".join("| " + " | ".join(cells) + " |" for cells in rows_of_cells) + "\n"


def counts(results, reader):
    """Returns the number of each verdict of one assembler."""
    total = collections.Counter(v.word for it in results for r, _, v in it.verdicts if r == reader)
    return ", ".join(f"{total[word]} {word}" for word in WORDS if total[word]) or "-"


def size(results):
    total = sum(it.size for it in results)
    return f"{total:,}"


def rows(results, readers):
    """Returns the table of one group: for each row its modules and bytes, the sets that printed, were refused or failed a check, and the verdicts."""
    named = collections.OrderedDict()
    for it in results:
        named.setdefault(it.row, []).append(it)
    lines = []
    for row, its in named.items():
        refused = sum(len(it.refused) for it in its)
        lines.append([row, len(its), size(its), sum(it.sets for it in its), refused or "-", sum(len(it.failed) for it in its) or "-", *(counts(its, r) for r in readers)])
    return table(["module", "modules", "bytes", "sets printed", "refused", "checks failed", *readers], lines)


def groups(results, readers):
    """Returns a table for each group of modules."""
    named = collections.OrderedDict()
    for it in results:
        named.setdefault(it.group, []).append(it)
    return "".join(f"## {group[0].upper()}{group[1:]}\n\n{rows(its, readers)}\n" for group, its in named.items())


def refusals(results):
    """Returns the table of the errors of printwasm, with what `wasm-tools` says of the same bytes."""
    found = collections.OrderedDict()
    for it in results:
        for words, fault in it.refused.items():
            found.setdefault((general(fault), it.judged), []).append((it, words))
    lines = []
    for (fault, judged), its in sorted(found.items(), key=lambda pair: -len(pair[1])):
        modules = {it.path for it, _ in its}
        smallest = min((it for it, _ in its), key=lambda it: it.size)
        lines.append([f"`{fault}`", JUDGED[judged], len(modules), len(its), f"{smallest.row}, {smallest.name}, {smallest.size} bytes"])
    return table(["error of printwasm", "what `wasm-tools` says", "modules", "sets", "smallest module"], lines) if lines else "None.\n"


def failures(results):
    """Returns the table of failed checks, at most 100 of them."""
    lines = [[it.row, it.name, it.size, fault] for it in results for fault in it.failed]
    return table(["module", "file", "bytes", "failed check"], lines[:100]) if lines else "None.\n"


def message_key(reader, it, verdict):
    """Returns the reason for a verdict, its message without places and numbers, and what the assembler's own reader says of the bytes."""
    also = verdict.notes[0].split(":")[0] if verdict.word == "refused" and verdict.notes else ""
    why = reason(reader, verdict, it.judged)
    message = "" if verdict.word in ("alike", "differs") and why != UNEXPLAINED else general(verdict.why)
    return reader, verdict.word, why, message, also


def messages(results, words):
    """Returns the table of the messages for these verdicts, one row for each kind of message, with its reason."""
    found = collections.OrderedDict()
    for it in results:
        for reader, options, verdict in it.verdicts:
            if verdict.word in words:
                found.setdefault(message_key(reader, it, verdict), []).append((it, options, verdict))
    lines = []
    for (reader, word, why, message, also), its in sorted(found.items(), key=lambda pair: (pair[0][:3], -len(pair[1]))):
        smallest, options, verdict = min(its, key=lambda entry: entry[0].size)
        place = f"{smallest.row} ({smallest.name}) {' '.join(options)}"
        lines.append([reader, word, why, f"`{message or verdict.why}`", also, len({it.path for it, _, _ in its}), len(its), place])
    return table(["assembler", "result", "reason", "message or first difference", "binary input", "modules", "texts", "smallest module"], lines) if lines else "None.\n"


def notes(results):
    """Returns the table of the notes on names and custom sections."""
    found = collections.OrderedDict()
    for it in results:
        for reader, options, verdict in it.verdicts:
            for note in verdict.notes if verdict.word != "refused" else ():
                found.setdefault((reader, note), []).append((it, options))
    lines = []
    for (reader, note), its in sorted(found.items(), key=lambda pair: (pair[0][0], -len(pair[1]))):
        smallest, options = min(its, key=lambda entry: entry[0].size)
        lines.append([reader, note, note_reason(reader, note), len({it.path for it, _ in its}), len(its), f"{smallest.row} ({smallest.name}) {' '.join(options)}"])
    return table(["assembler", "difference", "reason", "modules", "texts", "smallest module"], lines) if lines else "None.\n"
