"""The programs that are measured, and their commands."""

import os
import shutil
import subprocess


class Tool:
    """A program with its arguments for flat and for folded text. `writes` says whether it writes the text to a file itself."""

    def __init__(self, name, path, flat, folded, writes):
        self.name, self.path, self.words, self.writes = name, path, {"flat": flat, "folded": folded}, writes

    def command(self, mode, source, text):
        """Returns the command. A tool that does not write a file itself writes the text to standard output."""
        return [self.path, *self.words[mode], source, *(["-o", text] if self.writes else [])]

    def version(self):
        """Returns the version of the tool: the first line of its output for `--version`, without its name."""
        if not self.writes:
            return "of this repository"
        output = subprocess.run([self.path, "--version"], capture_output=True, text=True, check=False).stdout
        return output.strip().splitlines()[0].removeprefix(self.name).strip() if output.strip() else "unknown"


def found(name):
    """Returns the path of a peer in the folder PEERS or on the search path, or `None`."""
    folder = os.environ.get("PEERS")
    path = folder + os.pathsep + os.environ.get("PATH", "") if folder else None
    return shutil.which(name, path=path)


def all_tools(program):
    """Returns the program first, and then the peers that are found."""
    every = ["--enable-all", "--no-check"]
    tools = [
        Tool("printwasm", program, [], ["--fold"], False),
        Tool("wasm-tools", found("wasm-tools"), ["print"], ["print", "--fold-instructions"], True),
        Tool("wasm2wat", found("wasm2wat"), every, [*every, "-f"], True),
    ]
    return [tool for tool in tools if tool.path]
