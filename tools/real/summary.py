"""Formats the summary: how many modules were printed, and what the assemblers made of the texts."""

import collections

from reasons import reason
from tables import JUDGED, table

SAME = ("same", "normal")  # the verdicts for the same module
MEANING = {
    "same": "same bytes",
    "normal": "same module after normalising",
    "equivalent": "equivalent code",
    "alike": "another module, also of the text of `wasm-tools print`",
    "differs": "another module",
    "unknown": "not comparable",
    "refused": "refused, of a valid module",
    "invalid": "refused, of an invalid module",
}

def outcome(result):
    """Returns what printwasm did with a module under all sets of options."""
    if not result.refused:
        return "printed"
    if not result.sets:
        return "refused"
    return "unfolded" if all("--fold" in words for words in result.refused) else "other"


def counted(number):
    return f"{number:,}" if number else "-"


def modules_table(results):
    """Returns the table of modules, by what `wasm-tools` says of each."""
    lines, outcomes = [], ("printed", "unfolded", "refused", "other")
    for judged, meaning in [*JUDGED.items(), (None, "**all**")]:
        its = [it for it in results if judged in (it.judged, None)]
        found = collections.Counter(map(outcome, its))
        if its:
            lines.append([meaning, f"{len(its):,}", *(counted(found[word]) for word in outcomes)])
    heads = ["printed with every set of options", "printed except with `--fold`", "refused", "printed with other sets only"]
    return table(["what `wasm-tools` says", "modules", *heads], lines)


def texts_of(results):
    """Returns the verdicts of each text, by assembler. A text is known by its module and its options."""
    found = {}
    for it in results:
        for reader, words, verdict in it.verdicts:
            found.setdefault((it.path, words), {})[reader] = (it, verdict)
    return found


def result_of(it, verdict):
    """Returns the word of MEANING for a verdict."""
    return "invalid" if verdict.word == "refused" and it.judged not in ("", "valid") else verdict.word


def texts_table(texts, readers):
    """Returns the table of texts, by what each assembler makes of them."""
    lines = []
    for reader in readers:
        found = collections.Counter(result_of(*by[reader]) for by in texts.values() if reader in by)
        lines.append([reader, f"{len(texts):,}", *(counted(found[word]) for word in MEANING)])
    return table(["assembler", "texts", *MEANING.values()], lines)


def is_same(by, reader):
    return reader in by and by[reader][1].word in SAME


def together(texts, readers):
    """Returns lines about all assemblers: of how many texts all, or none, make the same module."""
    every = sum(all(is_same(by, reader) for reader in readers) for by in texts.values())
    none = [by for by in texts.values() if not any(is_same(by, reader) for reader in readers)]
    valid = sum(next(iter(by.values()))[0].judged == "valid" for by in none)
    modules = len({next(iter(by.values()))[0].path for by in none})
    return (
        f"- Texts of which every assembler makes the same module: {every:,} of {len(texts):,}.\n"
        f"- Texts of which no assembler makes the same module: {len(none):,}, of {modules:,} modules; texts among them that are of valid modules: {valid:,}.\n"
    )


def why(reader, it, verdict):
    """Returns the reason for a verdict."""
    return verdict.why if verdict.word == "equivalent" else reason(reader, verdict, it.judged)


def reasons_table(texts):
    """Returns the table of the reasons why an assembler refuses a text or makes another module of it."""
    found = collections.OrderedDict()
    for (path, _), by in texts.items():
        for reader, (it, verdict) in by.items():
            if verdict.word not in SAME:
                found.setdefault((reader, result_of(it, verdict), why(reader, it, verdict)), []).append((path, by))
    lines = []
    for (reader, word, reason_of), its in sorted(found.items(), key=lambda pair: (pair[0][0], list(MEANING).index(pair[0][1]), -len(pair[1]))):
        same = sum(is_same(by, "wasm-tools") for _, by in its)
        lines.append([reader, MEANING[word], reason_of, f"{len({path for path, _ in its}):,}", f"{len(its):,}", counted(same)])
    return table(["assembler", "result", "reason", "modules", "texts", "`wasm-tools parse` makes the same module"], lines) if lines else "None.\n"


def summary(results, readers):
    """Returns the summary with its headings."""
    texts = texts_of(results)
    sets, assemblies = sum(it.sets for it in results), sum(len(it.verdicts) for it in results)
    failed = sum(len(it.failed) for it in results)
    return "".join((
        "## Summary\n\n",
        f"{len(results):,} modules; {sets:,} texts printed; {len(texts):,} of them assembled, {assemblies:,} times; {failed:,} checks failed.\n\n",
        modules_table(results), "\n", texts_table(texts, readers), "\n", together(texts, readers), "\n", reasons_table(texts),
    ))
