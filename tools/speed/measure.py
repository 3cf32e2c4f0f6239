"""Runs the programs on a file, and measures their time, their peak of memory and their instructions."""

import os
import re
import shutil
import signal
import subprocess
import threading
import time

LIMIT = 600  # the seconds after which a run is stopped


def gnu_time():
    """Returns the path of GNU time, or `None`. It reports the peak of memory: a child of python3 itself starts with the peak of python3."""
    path = shutil.which("time")
    ran = subprocess.run([path, "--version"], capture_output=True, text=True, check=False) if path else None
    return path if ran and "GNU" in ran.stdout + ran.stderr else None


GNU_TIME = gnu_time()
VALGRIND = shutil.which("valgrind")
COUNTED_MB = float(os.environ.get("INSTRUCTIONS", "20"))  # the size of the largest module for which instructions are counted
COUNTING = ["--tool=cachegrind", "--cache-sim=no", "--cachegrind-out-file=/dev/null", "--trace-children=yes"]
COUNTED = re.compile(r"I\s+refs:\s+([\d,]+)")


class Result:
    """The best of several runs: elapsed seconds, processor seconds, bytes of memory at the peak, bytes of text, instructions (0 if they are not
    counted); or the error of a run."""

    def __init__(self):
        self.wall = self.cpu = float("inf")
        self.memory = self.text = self.instructions = 0
        self.fault = None


def spawn(command, folder, out, limit=LIMIT):
    """Runs a command to its end, or stops it after `limit` seconds. Returns its status, the elapsed seconds, and its resource usage."""
    opened = os.O_WRONLY | os.O_CREAT | os.O_TRUNC
    files = [
        (os.POSIX_SPAWN_OPEN, 0, os.devnull, os.O_RDONLY, 0),
        (os.POSIX_SPAWN_OPEN, 1, out, opened, 0o644),
        (os.POSIX_SPAWN_OPEN, 2, os.path.join(folder, "errors"), opened, 0o644),
    ]
    start = time.perf_counter()
    child = os.posix_spawn(command[0], command, os.environ, file_actions=files, setpgroup=0)
    stop = threading.Timer(limit, os.killpg, (child, signal.SIGKILL))
    stop.start()
    _, status, usage = os.wait4(child, 0)
    wall = time.perf_counter() - start
    stop.cancel()
    return os.waitstatus_to_exitcode(status), wall, usage


def fault(folder, status):
    """Returns the first line of standard error of a failed run, or its status if there is none."""
    with open(os.path.join(folder, "errors"), encoding="utf-8", errors="replace") as errors:
        lines = [line.strip() for line in errors if line.strip()]
    return lines[0][:120] if lines else f"status {status}"


def removed(path):
    """Removes a file, if it exists."""
    if os.path.exists(path):
        os.remove(path)


def started(command, kind, report):
    """Returns the command of a run of some kind. GNU time or valgrind starts it if they are needed, and writes to `report`."""
    if kind == "memory" and GNU_TIME:
        return [GNU_TIME, "-q", "-o", report, "-f", "%M", *command]
    return [VALGRIND, *COUNTING, f"--log-file={report}", *command] if kind == "instructions" else command


def record(result, kind, wall, usage, report):
    """Records what a run of some kind measures. Only a run that nothing else starts says something of time."""
    if kind == "time":
        result.wall = min(result.wall, wall)
        result.cpu = min(result.cpu, usage.ru_utime + usage.ru_stime)
    elif kind == "memory" and not GNU_TIME:
        result.memory = usage.ru_maxrss * 1024
    else:
        with open(report, encoding="utf-8") as file:
            words = file.read()
        if kind == "memory":
            result.memory = int(words) * 1024
        else:
            counts = COUNTED.findall(words)
            result.instructions = int(counts[-1].replace(",", "")) if counts else 0


def one_run(tool, mode, kind, source, folder, result):
    """Runs a program once, and records its time, its memory or its instructions. A failed run under valgrind is no error of the program."""
    text, report = os.path.join(folder, "text"), os.path.join(folder, "report")
    removed(text)
    removed(report)
    command = started(tool.command(mode, source, text), kind, report)
    status, wall, usage = spawn(command, folder, os.devnull if tool.writes else text)
    if status == 0:
        result.text = os.path.getsize(text)
        record(result, kind, wall, usage, report)
    elif kind != "instructions":
        result.fault = fault(folder, status)


def kinds_of_runs(source):
    """Returns the kind of each run on a file, in order."""
    size = os.path.getsize(source)
    counts = VALGRIND and size <= COUNTED_MB * 1e6
    return ["time"] * (3 if size > 5_000_000 else 5) + ["memory"] + (["instructions"] if counts else [])


def measured(tools, mode, source, folder):
    """Returns the results of all tools on a file, by name. The runs of the tools alternate, so that other load of the machine affects all."""
    results = {tool.name: Result() for tool in tools}
    for kind in kinds_of_runs(source):
        for tool in tools:
            if results[tool.name].fault is None:
                one_run(tool, mode, kind, source, folder, results[tool.name])
    for name in ("text", "report", "errors"):
        removed(os.path.join(folder, name))
    return results
