"""Runs other programs with limits of time and memory."""

import os
import resource
import shutil
import subprocess

SECONDS = 600
MEMORY = int(os.environ.get("MEMORY_GB", "4")) * 2**30


class Ran:
    """The result of a run: its status, standard output and standard error."""

    def __init__(self, status, out, err):
        self.status, self.out, self.err = status, out, err

    def fault(self):
        """Returns the first line of standard error that is not a warning, or the status if there is none."""
        lines = [line.strip() for line in self.err.decode("utf-8", "replace").splitlines() if line.strip() and not line.startswith("warning")]
        return lines[0] if lines else f"status {self.status}"


def limited():
    """Limits the memory of this process, and of the programs that it starts."""
    resource.setrlimit(resource.RLIMIT_AS, (MEMORY, MEMORY))
    resource.setrlimit(resource.RLIMIT_CORE, (0, 0))


def run(command):
    """Runs a command to its end, or stops it after SECONDS with the status -1."""
    try:
        ran = subprocess.run(command, stdin=subprocess.DEVNULL, capture_output=True, timeout=SECONDS, check=False)
    except subprocess.TimeoutExpired:
        return Ran(-1, b"", f"timed out after {SECONDS} seconds".encode())
    return Ran(ran.returncode, ran.stdout, ran.stderr)


def found(name):
    """Returns the path of a program in the folder PEERS or on the search path, or `None`."""
    folder = os.environ.get("PEERS")
    return shutil.which(name, path=folder + os.pathsep + os.environ.get("PATH", "") if folder else None)


def version(name):
    """Returns the version of a program: the first line of its output for `--version`, without its name."""
    path = found(name)
    if not path:
        return "missing"
    output = run([path, "--version"]).out.decode("utf-8", "replace").strip()
    return output.splitlines()[0].removeprefix(name).removeprefix(" version").strip() if output else "unknown"


def read(path):
    with open(path, "rb") as file:
        return file.read()


def write(path, data):
    """Writes a file, creates its parent folders, and returns its path."""
    os.makedirs(os.path.dirname(path), exist_ok=True)
    with open(path, "wb") as file:
        file.write(data)
    return path
