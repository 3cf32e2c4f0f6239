"""Formats the tables in Markdown, and lists the limits that are missed."""

TIME_LIMIT = 0.9  # divided by the time of wasm-tools
MEMORY_LIMIT = 1.5  # divided by the bytes of module and text together
GROWTH_LIMIT = 1.25  # divided by the growth in size, between the two largest generated modules
JUDGED = 100_000  # bytes: the limits apply to files larger than this


class Row:
    """The results of all tools for one file in one mode."""

    def __init__(self, name, size, made, results):
        self.name, self.size, self.made, self.results = name, size, made, results

    def ok(self, tool):
        return tool in self.results and self.results[tool].fault is None

    def ratio(self, field, peer):
        """Returns our value divided by a peer's, or `None` if one of them failed or has no value."""
        if not self.ok("printwasm") or not self.ok(peer):
            return None
        ours, theirs = getattr(self.results["printwasm"], field), getattr(self.results[peer], field)
        return ours / theirs if ours and theirs else None

    def share(self, tool, start=0):
        """Returns the peak of memory minus `start`, divided by the bytes of module and text together. Returns `None` for small files."""
        if self.size <= JUDGED or not self.ok(tool):
            return None
        return (self.results[tool].memory - start) / (self.size + self.results[tool].text)


def digits(value):
    """Formats a number with about three digits, and `None` as a dash."""
    if value is None:
        return "-"
    return f"{value:.3f}" if value < 10 else f"{value:.1f}"


def millions(value):
    return digits(value / 1e6 if value is not None else None)


def table(heads, lines):
    """Returns a table whose first column holds words, and all others numbers."""
    marks = ["---"] + ["---:"] * (len(heads) - 1)
    return "\n".join("| " + " | ".join(cells) + " |" for cells in [heads, marks, *lines]) + "\n"


def each(row, tools, show):
    """Returns the cell of each tool, and a dash for one that failed."""
    return [show(row.results[tool]) if row.ok(tool) else "-" for tool in tools]


def sizes(rows, tools):
    """Returns the table of the sizes of each module and its texts."""
    heads = ["file", "module MB", *(f"text of {t} MB" for t in tools)]
    return table(heads, [[row.name, millions(row.size), *each(row, tools, lambda r: millions(r.text))] for row in rows])


def times(rows, tools):
    """Returns the table of elapsed seconds, with the ratios of our elapsed and processor times to the peers'."""
    peers = tools[1:]
    heads = ["file", "module MB", *(f"{t} s" for t in tools), *(f"ours / {p}" for p in peers), *(f"processor / {p}" for p in peers)]
    lines = []
    for row in rows:
        ratios = [digits(row.ratio(field, p)) for field in ("wall", "cpu") for p in peers]
        lines.append([row.name, millions(row.size), *each(row, tools, lambda r: digits(r.wall)), *ratios])
    return table(heads, lines)


def instructions(rows, tools):
    """Returns the table of instructions in millions, with the ratios of ours to the peers'."""
    peers = tools[1:]
    heads = ["file", *(f"{t} millions" for t in tools), *(f"ours / {p}" for p in peers)]
    lines = []
    for row in rows:
        counts = each(row, tools, lambda r: millions(r.instructions or None))
        lines.append([row.name, *counts, *(digits(row.ratio("instructions", p)) for p in peers)])
    return table(heads, lines)


def started(rows, tool):
    """Returns the memory that a tool needs for the empty module."""
    return rows[0].results[tool].memory


def memories(rows, tools):
    """Returns the table of peaks of memory: the ratios of ours to the peers', and the peaks divided by the bytes of module and text.

    The last column subtracts the memory for the empty module.
    """
    peers = tools[1:]
    heads = ["file", *(f"{t} MB" for t in tools), *(f"ours / {p}" for p in peers), *(f"{t} share" for t in tools), "printwasm net"]
    lines = []
    for row in rows:
        shares = [row.share(t) for t in tools] + [row.share("printwasm", started(rows, "printwasm"))]
        ratios = [row.ratio("memory", p) for p in peers]
        lines.append([row.name, *each(row, tools, lambda r: millions(r.memory)), *map(digits, ratios + shares)])
    return table(heads, lines)


def grown(rows, tool, field):
    """Returns each pair of consecutive generated modules with the growth of a value, divided by the growth in size. Skips failed runs."""
    pairs = []
    for small, big in zip(rows, rows[1:]):
        if small.ok(tool) and big.ok(tool):
            value = getattr(big.results[tool], field) / getattr(small.results[tool], field)
            pairs.append((small, big, value / (big.size / small.size)))
    return pairs


def growth(rows, tools):
    """Returns the table of time and memory per MB of the module, and of their growth relative to the module's."""
    made = [row for row in rows if row.made]
    heads = ["per MB of module", *(r.name for r in made), *(f"{a.name} to {b.name}" for a, b in zip(made, made[1:]))]
    lines = []
    for field, unit, scale in (("wall", "s", 1e-6), ("memory", "MB", 1)):
        for tool in tools:
            known = {(a.name, b.name): value for a, b, value in grown(made, tool, field)}
            cells = [digits(getattr(r.results[tool], field) / (r.size * scale)) if r.ok(tool) else "-" for r in made]
            lines.append([f"{tool} {unit}", *cells, *(digits(known.get((a.name, b.name))) for a, b in zip(made, made[1:]))])
    return table(heads, lines)


def missed_by(row, mode):
    """Returns the limits that one file misses."""
    ours = row.results["printwasm"]
    if ours.fault is not None:
        return [f"{row.name}, {mode}: printwasm failed: {ours.fault}"]
    missed, ratio, share = [], row.ratio("wall", "wasm-tools"), row.share("printwasm")
    if ratio is None:
        missed.append(f"{row.name}, {mode}: time not compared: no time of wasm-tools")
    elif ratio > TIME_LIMIT:
        missed.append(f"{row.name}, {mode}: time {digits(ratio)} of wasm-tools (limit: at most {TIME_LIMIT})")
    if share is not None and share >= MEMORY_LIMIT:
        missed.append(f"{row.name}, {mode}: memory {digits(share)} of module and text (limit: under {MEMORY_LIMIT})")
    return missed


def missed(rows, mode):
    """Returns all limits that are missed, of files over 100 KB and of growth."""
    lines = [line for row in rows if row.size > JUDGED for line in missed_by(row, mode)]
    for field, word in (("wall", "time"), ("memory", "memory")):
        for small, big, value in grown([r for r in rows if r.made], "printwasm", field)[-1:]:
            if value > GROWTH_LIMIT:
                lines.append(f"{small.name} to {big.name}, {mode}: {word} grows {digits(value)} times as fast as the module (limit: at most {GROWTH_LIMIT})")
    return lines


def faults(rows, mode):
    """Returns the error of each peer that failed."""
    failed = [(row, tool) for row in rows for tool in row.results if tool != "printwasm" and not row.ok(tool)]
    return [f"{row.name}, {mode}: {tool} failed: {row.results[tool].fault}" for row, tool in failed]


def span(rows, field, peer):
    """Returns the least, the median and the greatest of our ratios to a peer, of files over 100 KB, with the file of the greatest."""
    ratios = sorted((row.ratio(field, peer), row.name) for row in rows if row.size > JUDGED and row.ratio(field, peer) is not None)
    if not ratios:
        return "-"
    return f"{digits(ratios[0][0])}, {digits(ratios[len(ratios) // 2][0])}, {digits(ratios[-1][0])} ({ratios[-1][1]})"


def summary(modes, tools):
    """Returns the table of the ratios of each mode to each peer. `modes` has the rows of each mode."""
    heads, lines = ["text, peer", "files", "time", "processor time", "instructions", "memory"], []
    for mode, rows in modes.items():
        for peer in tools[1:]:
            files = sum(row.size > JUDGED and row.ratio("wall", peer) is not None for row in rows)
            lines.append([f"{mode}, {peer}", str(files), *(span(rows, field, peer) for field in ("wall", "cpu", "instructions", "memory"))])
    return table(heads, lines)
