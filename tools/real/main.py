"""main.py PROGRAM WORK DATA: makes the modules, prints each with every set of options, reassembles and compares the texts, and writes the tables.

tools/real.sh calls it and documents it.
"""

import multiprocessing
import os
import shutil
import sys
import tempfile
import time

from modules import all_modules, newest
from origin import head
from printing import printed_texts
from readers import READERS, Original, assembled
from running import found, limited, run, version
from summary import summary
from tables import failures, groups, messages, notes, refusals
from wasm import Malformed

FEW = ((), ("--name-unnamed", "--fold", "--offsets"))  # the sets whose texts are assembled for modules with a large text or in a large group
MANY = ("sets of small ones", "objects in archives")  # the large groups
FEATURES = "all,-shared-everything-threads"  # the features with which `wasm-tools validate` runs: all except those out of scope of printwasm
LARGE = 30_000_000  # bytes of text
QUICK_SIZE = 1_000_000  # bytes of the largest module of a quick run


class Result:
    """The results for one module."""

    def __init__(self, module, printed):
        self.group, self.row, self.path, self.size = module.group, module.row, module.path, module.size
        self.name = os.path.basename(module.path)
        self.sets, self.refused, self.failed = printed.sets, printed.refused, printed.failed
        self.verdicts, self.judged = [], judged(module.path) if found("wasm-tools") else ""


def judged(path):
    """Returns what `wasm-tools` says of a module: it is valid, only printable, or refused."""
    if run([found("wasm-tools"), "validate", "--features", FEATURES, path]).status == 0:
        return "valid"
    return "printable" if run([found("wasm-tools"), "print", path, "-o", os.devnull]).status == 0 else "refused"


def chosen(module, printed):
    """Returns the texts to assemble, by their options."""
    only_few = module.group in MANY or any(os.path.getsize(path) > LARGE for path in printed.texts.values())
    return {words: path for words, path in printed.texts.items() if not only_few or words in FEW}


def examined(program, module):
    """Prints a module, assembles its texts, compares, and returns the results."""
    folder = tempfile.mkdtemp(prefix="wasmprinter-real-")
    try:
        printed = printed_texts(program, module.path, folder)
        result = Result(module, printed)
        if printed.texts:
            original = Original(module.path, folder)
            for reader in READERS:
                if reader.path:
                    result.verdicts += [(reader.name, words, assembled(original, reader, words, text)) for words, text in chosen(module, printed).items()]
    except Malformed as fault:
        result.failed.append(f"printwasm prints it, but its sections are malformed: {fault}")
    finally:
        shutil.rmtree(folder)
    return result


def worked(job):
    """Runs the job of one worker. Reports the path of a module of over 1 MB on standard error, since it takes long."""
    program, module = job
    if module.size > 1_000_000:
        print(f"real: {module.path}", file=sys.stderr, flush=True)
    return examined(program, module)


def versions():
    """Returns the name and version of each tool."""
    clang = newest("clang")
    known = [f"{name} {version(name)}" for name in ("wasm-tools", "wat2wasm", "wasm-as")]
    return [*known, run([clang, "--version"]).out.decode().splitlines()[0] if clang else "no clang"]


def details(results, readers):
    """Returns the tables after the summary, with their headings."""
    parts = ["## What printwasm refuses\n\n", refusals(results), "\n## Checks of texts that failed\n\n", failures(results)]
    parts += ["\n## What assemblers refuse\n\n", messages(results, ("refused",))]
    parts += ["\n## Where modules differ, or can't be compared\n\n", messages(results, ("alike", "differs", "unknown"))]
    parts += ["\n## Names and custom sections\n\n", notes(results), "\n", groups(results, readers)]
    return "".join(parts).rstrip("\n") + "\n"


INTRODUCTION = """# Texts of real modules, assembled by other tools

[REAL-FILES](../REAL-FILES.md) says what is compared and what the words mean.
"""


def process(program, modules):
    """Processes all modules, the largest first, in several processes, and returns the results in the order of the modules."""
    order = sorted(range(len(modules)), key=lambda at: -modules[at].size)
    results = [None] * len(modules)
    with multiprocessing.Pool(int(os.environ.get("JOBS", os.cpu_count() or 1)), limited) as pool:
        for count, (at, result) in enumerate(zip(order, pool.imap(worked, [(program, modules[at]) for at in order]))):
            results[at] = result
            if count % 200 == 199:
                print(f"real: {count + 1} of {len(modules)}", file=sys.stderr, flush=True)
    return results


def selected(modules):
    """Returns the modules that ONLY and QUICK leave."""
    only, quick = os.environ.get("ONLY", ""), int(os.environ.get("QUICK", "0"))
    modules = [it for it in modules if only in it.path or only in it.group]
    if not quick:
        return modules
    many = [it for it in modules if it.group in MANY]
    kept = {it.path for it in many[::quick]} | {it.path for it in modules if it.group not in MANY}
    return [it for it in modules if it.path in kept and it.size <= QUICK_SIZE]


def main(program, work, data):
    started, missing = time.monotonic(), []
    modules = all_modules(work, missing)
    chosen_ones = selected(modules)
    if len(chosen_ones) < len(modules):
        missing.append(f"These are {len(chosen_ones):,} of {len(modules):,} modules")
    results = process(program, chosen_ones)
    readers = [reader.name for reader in READERS if reader.path]
    minutes = (time.monotonic() - started) / 60
    first = head("tools/real.sh", program, versions()) + f"It took {minutes:.0f} minutes.\n" + "".join(f"{line}.\n" for line in missing)
    text = f"{INTRODUCTION}{first}\n{summary(results, readers)}\n"
    with open(data, "w", encoding="utf-8") as file:
        file.write(text + details(results, readers))
    print(text, end="")


if __name__ == "__main__":
    main(*sys.argv[1:])
