"""Runs the program on a shape in three sizes, and computes how its time and memory grow with the bytes of module and text."""

import os
import tempfile

from speed.measure import GNU_TIME, fault, removed, spawn

FACTORS = (1, 2, 4)  # the sizes of a shape, as multiples of its smallest
FIRST_ITEMS = 10_000  # the smallest number of items that is tried
LIMIT = 60  # the seconds after which a run is stopped
MARGIN = 1.5  # the first run is not the fastest, so it has to take this many times the least seconds
ENOUGH = 5  # a size isn't run again after this many processor seconds in total
MOST_BYTES = 16_000_000  # the number of items isn't doubled if module and text together exceed this many bytes


class Size:
    """The measurements of a shape in one size: the bytes of the module and of its text, the least processor time, and the peak of memory."""

    def __init__(self, items, module):
        self.items, self.module = items, module
        self.text = self.memory = 0
        self.seconds, self.spent = float("inf"), 0.0
        self.fault = None

    def bytes(self):
        return self.module + self.text

    def add(self, seconds, memory):
        self.seconds, self.spent = min(self.seconds, seconds), self.spent + seconds
        self.memory = min(self.memory or memory, memory)


class Series:
    """A shape with options in several sizes."""

    def __init__(self, shape, options):
        self.shape, self.options, self.sizes = shape, options, []

    def fault(self):
        """Returns the error of a run that failed, or `None`."""
        return next((size.fault for size in self.sizes if size.fault), None)

    def ratios(self, field, least=0):
        """Returns for each size after the first how much a value for each byte grows. The value of the smaller size has to be `least`."""
        values = [(getattr(size, field), size.bytes()) for size in self.sizes if not size.fault]
        pairs = zip(values, values[1:])
        return [(big / big_bytes) / (small / small_bytes) for (small, small_bytes), (big, big_bytes) in pairs if small >= least]


def run(program, options, path, size, folder, keeps_text=False):
    """Runs the program once, and adds the measurements to `size`.

    GNU time starts it and reports the peak of memory: that of a child of python3 begins with python3's.
    """
    text, peak = os.path.join(folder, "text"), os.path.join(folder, "peak")
    command = [program, *options, path]
    if GNU_TIME:
        command = [GNU_TIME, "-q", "-o", peak, "-f", "%M", *command]
    status, elapsed, usage = spawn(command, folder, text if keeps_text else os.devnull, LIMIT)
    if status != 0:
        size.fault = f"stopped after {LIMIT} s" if elapsed >= LIMIT else fault(folder, status)
        return
    memory = usage.ru_maxrss
    if GNU_TIME:
        with open(peak, encoding="ascii") as report:
            memory = int(report.read())
    if keeps_text:
        size.text = os.path.getsize(text)
        removed(text)
    size.add(usage.ru_utime + usage.ru_stime, memory * 1024)


def written(shape, items, folder):
    """Generates a module and writes it. Returns its path and its size without measurements."""
    path = os.path.join(folder, f"{items}.wasm")
    data = shape.make(items)
    with open(path, "wb") as file:
        file.write(data)
    return path, Size(items, len(data))


def first_size(program, shape, options, least, folder):
    """Runs the program on more and more items until a run takes `least` seconds, or a limit is reached. Returns the path and the size."""
    items = FIRST_ITEMS
    while True:
        path, size = written(shape, items, folder)
        run(program, options, path, size, folder, keeps_text=True)
        is_enough = size.fault or size.seconds >= MARGIN * least or size.bytes() > MOST_BYTES
        if is_enough or 2 * items * FACTORS[-1] > shape.most:
            return path, size
        removed(path)
        items *= 2


def repeat(program, options, path, size, runs, folder):
    """Runs the program again, as long as no run fails and the runs have not taken too long together."""
    for _ in range(runs):
        if size.fault or size.spent >= ENOUGH:
            return
        run(program, options, path, size, folder)


def measured(program, shape, options, least, runs):
    """Returns the measurements of a shape in all sizes, up to the first that fails."""
    series = Series(shape.name, options)
    with tempfile.TemporaryDirectory() as folder:
        path, size = first_size(program, shape, options, least, folder)
        for factor in FACTORS:
            if factor > 1:
                path, size = written(shape, factor * series.sizes[0].items, folder)
                run(program, options, path, size, folder, keeps_text=True)
            series.sizes.append(size)
            repeat(program, options, path, size, runs - 1, folder)
            if size.fault:
                break
    return series


def measure_again(program, shape, series, runs):
    """Adds more runs to all sizes of a series."""
    with tempfile.TemporaryDirectory() as folder:
        for size in series.sizes:
            path, _ = written(shape, size.items, folder)
            size.spent = 0.0
            repeat(program, series.options, path, size, runs, folder)
