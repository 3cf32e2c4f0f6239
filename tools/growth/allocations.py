"""Counts the allocations of the program for each item of a shape, with valgrind."""

import os
import re
import subprocess
import tempfile

from growth.measure import LIMIT, written

ITEMS = (1000, 2000)
VALGRIND = ("valgrind", "--tool=memcheck", "--leak-check=no", "--undef-value-errors=no")
COUNTED = re.compile(r"total heap usage: ([\d,]+) allocs")


def count(program, options, path):
    """Returns the number of allocations of a run, or `None` if the run fails or takes too long."""
    command = [*VALGRIND, program, *options, path]
    try:
        ran = subprocess.run(command, stdout=subprocess.DEVNULL, stderr=subprocess.PIPE, timeout=LIMIT, check=False)
    except subprocess.TimeoutExpired:
        return None
    found = COUNTED.search(ran.stderr.decode(errors="replace"))
    return int(found.group(1).replace(",", "")) if found and ran.returncode == 0 else None


def allocations(program, shape, options):
    """Returns the number of allocations for each further item, or `None` if a run fails."""
    counts = []
    with tempfile.TemporaryDirectory() as folder:
        for items in ITEMS:
            path, _ = written(shape, items, folder)
            counts.append(count(program, options, path))
            os.remove(path)
    return None if None in counts else (counts[1] - counts[0]) / (ITEMS[1] - ITEMS[0])
