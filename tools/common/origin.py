"""Describes where the numbers of a data file come from: its command, date, program, commits and machine."""

import datetime
import hashlib
import os
import platform
import subprocess

SETTINGS = ("INSTRUCTIONS", "JOBS", "MEMORY_GB", "ONLY", "QUICK", "SIZES")  # the variables that a command shows if they are set


def git(folder, *words):
    """Returns the output of a git command in a folder, or no text if it fails."""
    ran = subprocess.run(["git", "-C", folder, *words], capture_output=True, text=True, check=False)
    return ran.stdout.strip() if ran.returncode == 0 else ""


def commit(folder):
    """Returns the commit of the checkout that contains a folder, and whether its files differ from the commit."""
    known = git(folder, "log", "-1", "--format=%h")
    if not known:
        return "no commit"
    changed = git(folder, "status", "--porcelain", "--untracked-files=no", "--", ":/crates", ":/tools")
    return f"commit {known}" + (" with changes" if changed else "")


def is_stale(program):
    """Reports whether code in the checkout of a program is newer than the program."""
    top = git(os.path.dirname(os.path.realpath(program)), "rev-parse", "--show-toplevel")
    built = os.path.getmtime(program)
    names = git(top, "ls-files", "crates/*.rt").splitlines() if top else []
    paths = [os.path.join(top, name) for name in names]
    return any(os.path.getmtime(path) > built for path in paths if os.path.exists(path))


def program_line(program):
    """Describes a program: its commit, the words of PROGRAM_IS, its size and its digest."""
    with open(program, "rb") as file:
        data = file.read()
    words = [commit(os.path.dirname(os.path.realpath(program))), os.environ.get("PROGRAM_IS", "")]
    words += ["older than some of its sources" if is_stale(program) else ""]
    words += [f"{len(data):,} bytes", f"SHA-256 {hashlib.sha256(data).hexdigest()[:16]}.."]
    return "Program: printwasm, " + ", ".join(word for word in words if word) + "."


def machine():
    """Returns a description of the machine: its processors, memory and kernel."""
    with open("/proc/cpuinfo", encoding="utf-8") as info:
        models = [line.split(":", 1)[1].strip() for line in info if line.startswith("model name")]
    memory = os.sysconf("SC_PAGE_SIZE") * os.sysconf("SC_PHYS_PAGES") / 2**30
    model = models[0] if models else platform.machine()
    return f"{model}, {os.cpu_count()} processors, {memory:.1f} GiB of memory, Linux {platform.release()}"


def head(script, program, versions):
    """Returns the first lines of a data file: the command with its settings, the date, the commits, the program, the tools and the machine."""
    here = os.path.dirname(os.path.abspath(__file__))
    settings = "".join(f"{name}='{os.environ[name]}' " for name in SETTINGS if os.environ.get(name))
    return "\n".join((
        f"Made by `{settings}sh {script}` on {datetime.date.today():%Y-%m-%d}. Scripts: {commit(here)}.",
        program_line(program),
        f"Other tools: {', '.join(versions)}.",
        f"Machine: {machine()}.",
    )) + "\n"
