#!/usr/bin/env -S python3 -B
"""Checks that the time and memory of `printwasm` grow no faster than the bytes of a module and its text.

tools/growth.py [--quick] [--only WORD] [--program PATH] [--jobs N]
    Generates modules of all shapes in three sizes (n, 2n and 4n items), prints each with several sets of options, and divides the least processor
    time of up to five runs (fewer if they take 5 s together), and the peak of memory, by the bytes of module and text together. From one size to
    the next, this quotient may grow by at most a quarter. n is 10,000, and is doubled until a run takes 75 ms, module and text have 16 MB, or the
    printer's limits are reached. If a size takes less than 50 ms, its time is not judged, and the table says so.
    A measurement above the bound is repeated alone, at most three times. A run is stopped after 60 s, which counts as a failure.
    Prints a line for each shape and set of options, then a summary. The status is 1 if a ratio is above the bound or a run fails.
tools/growth.py --allocations [..]
    Prints how many allocations each further item costs instead. The status is 1 if a shape needs more than three. Needs valgrind.
tools/growth.py --validate COMMAND
    Runs a validator on small modules of all shapes instead, and reports those for which its answer is not the expected one. The command used is
    `wasm-tools validate --features all`.
tools/growth.py --write SHAPE N FILE
    Writes a module instead.
tools/growth.py --list
    Prints the shapes instead.

It is not part of the gate. Needs python3 and GNU time (`apt-get install time`); without it, each peak of memory is at least that of python3.
With --quick, which has fewer runs and items, it takes ten minutes with --jobs 2. A whole run takes several times as long.
"""

import argparse
import concurrent.futures
import os
import shlex
import subprocess
import sys
import tempfile

from growth.allocations import allocations
from growth.code_shapes import CODE_SHAPES
from growth.measure import measure_again, measured, written
from growth.module_shapes import MODULE_SHAPES

SHAPES = {**MODULE_SHAPES, **CODE_SHAPES}
PROGRAM = os.path.join(os.path.dirname(os.path.dirname(os.path.abspath(__file__))), "crates", "printwasm", "out", "printwasm")
BOUND = 1.25  # for the growth of a quotient from one size to the next
REPETITIONS = 3  # of a measurement above the bound
MOST_ALLOCATIONS = 3  # for each item; more are reported
VALIDATED_ITEMS = 600
FLAT = ("--offsets", "--name-unnamed", "--color")
MODES = ((), ("--fold",), ("--fold", *FLAT), ("--skeleton",))
NAME_WIDTH, OPTIONS_WIDTH = 28, 18
HEADS = "items | MB of module and text | processor seconds | MB of memory | greatest ratio of time | of memory"


class Plan:
    """What is measured: the sets of options, the least processor seconds of the smallest size, and the number of runs of each size."""

    def __init__(self, program, quick):
        self.program = program
        self.least, self.runs = (0.02, 2) if quick else (0.05, 5)

    def modes_of(self, shape):
        """Returns the sets of options for a shape. Where folding is refused, the others of the set remain."""
        modes = MODES if shape.folds else [tuple(o for o in mode if o != "--fold") for mode in MODES]
        return list(dict.fromkeys(modes))


def short(options):
    """Returns the options in a few words."""
    if len(options) > 1:
        return "all but --skeleton" if "--fold" in options else "all flat"
    return options[0] if options else "none"


def numbers(values, digits):
    return " ".join(f"{value:.{digits}f}" for value in values)


def judged(series, least):
    """Returns the ratios of time and of memory. Sizes whose time is too short have no ratio of time."""
    return series.ratios("seconds", least), series.ratios("memory")


def is_above(series, plan):
    """Reports whether a ratio is above the bound."""
    return any(ratio > BOUND for ratios in judged(series, plan.least) for ratio in ratios)


def greatest(ratios):
    return f"{max(ratios):.2f}" if ratios else "-"


def remark(series, plan):
    """Returns a remark on a series: that it failed, that a ratio is above the bound, or that its time is not judged."""
    times, _ = judged(series, plan.least)
    if series.fault():
        return f"FAILED: {series.fault()}"
    if is_above(series, plan):
        return "ABOVE"
    if len(times) < len(series.sizes) - 1:
        return f"time not judged under {plan.least * 1000:.0f} ms"
    return ""


def line(series, plan):
    """Returns the line of the table."""
    times, memories = judged(series, plan.least)
    sizes = series.sizes
    cells = [
        f"{series.shape:{NAME_WIDTH}} {short(series.options):{OPTIONS_WIDTH}}",
        numbers((size.items for size in sizes), 0),
        numbers((size.bytes() / 1e6 for size in sizes), 2),
        numbers((size.seconds for size in sizes), 3),
        numbers((size.memory / 1e6 for size in sizes), 1),
        greatest(times),
        greatest(memories),
        remark(series, plan),
    ]
    return " | ".join(cells).rstrip(" |")


def measured_shape(shape_name, plan):
    """Returns the measurements of a shape with all sets of options."""
    shape = SHAPES[shape_name]
    return [measured(plan.program, shape, options, plan.least, plan.runs) for options in plan.modes_of(shape)]


def settled(series, plan):
    """Measures again what is above the bound, with nothing else running."""
    for _ in range(REPETITIONS):
        if series.fault() or not is_above(series, plan):
            return
        measure_again(plan.program, SHAPES[series.shape], series, plan.runs)


def summary(all_series, plan):
    """Returns the last line of the table."""
    ratios = [(ratio, kind, s) for s in all_series for kind, values in zip(("time", "memory"), judged(s, plan.least)) for ratio in values]
    shapes = len({s.shape for s in all_series})
    failed = sum(1 for s in all_series if s.fault())
    above = sum(1 for s in all_series if is_above(s, plan))
    if not ratios:
        return f"{shapes} shapes, nothing judged, {failed} failed"
    ratio, kind, series = max(ratios, key=lambda entry: entry[0])
    worst = f"the greatest ratio is {ratio:.2f} ({kind}, {series.shape}, options: {short(series.options)})"
    return f"{shapes} shapes, {len(all_series)} lines: {worst}; {above} above {BOUND}, {failed} failed"


def check_growth(names, plan, jobs):
    """Measures all shapes, prints the table, and returns the exit status."""
    print(f"{'shape':{NAME_WIDTH}} {'options':{OPTIONS_WIDTH}} | {HEADS}")
    all_series = []
    with concurrent.futures.ProcessPoolExecutor(jobs) as pool:
        for several in pool.map(measured_shape, names, [plan] * len(names)):
            all_series += several
            for series in several:
                if not is_above(series, plan) or series.fault():
                    print(line(series, plan), flush=True)
    # those above the bound come last: they are measured again alone
    for series in all_series:
        if is_above(series, plan) and not series.fault():
            settled(series, plan)
            print(line(series, plan), flush=True)
    print(summary(all_series, plan))
    return 1 if any(series.fault() or is_above(series, plan) for series in all_series) else 0


def allocations_of(shape_name, plan):
    shape = SHAPES[shape_name]
    return [(options, allocations(plan.program, shape, options)) for options in plan.modes_of(shape)]


def check_allocations(names, plan, jobs):
    """Prints the allocations of each shape for each item, and returns the exit status."""
    above = 0
    with concurrent.futures.ProcessPoolExecutor(jobs) as pool:
        for name, counts in zip(names, pool.map(allocations_of, names, [plan] * len(names))):
            cells = [f"{short(options)}: {'failed' if value is None else f'{value:.3f}'}" for options, value in counts]
            is_too_many = any(value is None or value > MOST_ALLOCATIONS for _, value in counts)
            above += is_too_many
            print(f"{name:{NAME_WIDTH}} | {' | '.join(cells)}{' | ABOVE' if is_too_many else ''}", flush=True)
    print(f"{len(names)} shapes: {above} with more than {MOST_ALLOCATIONS} allocations for each item, or a failed run")
    return 1 if above else 0


def check_validity(names, command):
    """Runs a validator on a small module of each shape, reports unexpected answers, and returns the exit status."""
    wrong = 0
    with tempfile.TemporaryDirectory() as folder:
        for shape in map(SHAPES.get, names):
            if shape.valid is None:
                continue
            path, _ = written(shape, VALIDATED_ITEMS, folder)
            ran = subprocess.run([*shlex.split(command), path], capture_output=True, text=True, check=False)
            if (ran.returncode == 0) != shape.valid:
                wrong += 1
                print(f"{shape.name}: status {ran.returncode}: {ran.stderr.strip()}")
    print(f"{len(names)} shapes, {wrong} with an unexpected answer")
    return 1 if wrong else 0


def arguments():
    parser = argparse.ArgumentParser(description=__doc__, formatter_class=argparse.RawDescriptionHelpFormatter)
    parser.add_argument("--program", default=PROGRAM, help="default: the proved program of this checkout")
    parser.add_argument("--quick", action="store_true")
    parser.add_argument("--only", metavar="WORD", default="", help="the shapes whose name contains the word")
    parser.add_argument("--jobs", type=int, default=os.cpu_count(), help="the number of runs at the same time")
    parser.add_argument("--allocations", action="store_true")
    parser.add_argument("--validate", metavar="COMMAND")
    parser.add_argument("--write", nargs=3, metavar=("SHAPE", "N", "FILE"))
    parser.add_argument("--list", action="store_true")
    return parser.parse_args()


def main():
    given = arguments()
    names = [name for name in SHAPES if given.only in name]
    if not names:
        print(f"growth: no shape contains {given.only}", file=sys.stderr)
        return 2
    if given.list:
        print("\n".join(f"{name}: {SHAPES[name].summary}" for name in names))
        return 0
    if given.write:
        name, items, path = given.write
        if name not in SHAPES:
            print(f"growth: no shape {name}", file=sys.stderr)
            return 2
        with open(path, "wb") as file:
            file.write(SHAPES[name].make(int(items)))
        return 0
    if given.validate:
        return check_validity(names, given.validate)
    if not os.access(given.program, os.X_OK):
        print(f"growth: {given.program} is missing: build it (see the README), or name a program with --program", file=sys.stderr)
        return 2
    plan = Plan(given.program, given.quick)
    return (check_allocations if given.allocations else check_growth)(names, plan, given.jobs)


if __name__ == "__main__":
    sys.exit(main())
