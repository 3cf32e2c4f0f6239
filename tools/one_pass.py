#!/usr/bin/env python3
"""Measures the processor time of a print from C, C++, Rust and Python, as a part of that of a print by `printwasm`. Not part of the gate.

    tools/one_pass.py BUILT FILE..

BUILT is a folder that `tools/install.sh build BUILT` has made. A print from a language takes the difference between a program that prints N + 1
times and one that prints once, divided by N; one by `printwasm` the difference between a run on the file and one on an empty module, so the start
of a process and the reading of the file are left out. Each time is the least of RUNS runs. Prints a table. Needs `cc`, `c++`, `cargo` and Linux.
"""

import os
import pathlib
import resource
import subprocess
import sys
import tempfile

RUNS, REPEATS = 7, 4
ROOT = pathlib.Path(__file__).resolve().parent.parent
SOURCES = ROOT / "tools/one_pass"
EMPTY = b"\0asm\1\0\0\0"
RUST = """[package]
name = "repeat"
version = "0.0.0"
edition = "2021"
[dependencies]
wasmprinter-proved = {{ path = "{root}/bindings/rust" }}
[profile.release]
debug = false
"""


def run(command, **more):
    """Runs a command, and fails if it does."""
    subprocess.run([str(word) for word in command], check=True, stdout=subprocess.DEVNULL, **more)


def seconds(command, **more):
    """Returns the least processor time of several runs of a command."""
    times = []
    for _ in range(RUNS):
        before = resource.getrusage(resource.RUSAGE_CHILDREN)
        run(command, **more)
        after = resource.getrusage(resource.RUSAGE_CHILDREN)
        times.append(after.ru_utime + after.ru_stime - before.ru_utime - before.ru_stime)
    return min(times)


def callers(built, work):
    """Builds the programs that print repeatedly. Returns for each language the command, the words after the count, and the environment."""
    library = built / "libwasmprinter.a"
    run(["cc", "-O2", f"-I{ROOT}/include", SOURCES / "repeat.c", library, "-o", work / "repeat_c"])
    run(["c++", "-O2", "-std=c++17", f"-I{ROOT}/include", f"-I{ROOT}/bindings/cpp", SOURCES / "repeat.cpp", library, "-o", work / "repeat_cpp"])
    crate = work / "crate"
    (crate / "src").mkdir(parents=True)
    (crate / "Cargo.toml").write_text(RUST.format(root=ROOT))
    (crate / "src/main.rs").write_bytes((SOURCES / "repeat.rs").read_bytes())
    environment = dict(os.environ, WASMPRINTER_LIB=str(built))
    run(["cargo", "build", "--offline", "--quiet", "--release", "--manifest-path", crate / "Cargo.toml"], env=environment)
    python = dict(os.environ, PYTHONPATH=f"{ROOT}/bindings/python", WASMPRINTER_SO=str(built / "libwasmprinter.so.1"), PYTHONDONTWRITEBYTECODE="1")
    return {
        "C": ([work / "repeat_c"], [], None),
        "C++": ([work / "repeat_cpp"], [], None),
        "C++, string": ([work / "repeat_cpp"], ["string"], None),
        "Rust": ([crate / "target/release/repeat"], [], None),
        "Python": ([sys.executable, SOURCES / "repeat.py"], [], python),
    }


def main():
    if len(sys.argv) < 3:
        sys.exit(__doc__)
    built = pathlib.Path(sys.argv[1]).resolve()
    with tempfile.TemporaryDirectory() as folder:
        work = pathlib.Path(folder)
        (work / "empty.wasm").write_bytes(EMPTY)
        commands = callers(built, work)
        print("| module | MB | `printwasm`, ms | " + " | ".join(commands) + " |")
        print("|---|---:|---:|" + "---:|" * len(commands))
        for path in map(pathlib.Path, sys.argv[2:]):
            base = seconds([built / "printwasm", path]) - seconds([built / "printwasm", work / "empty.wasm"])
            parts = []
            for command, last, environment in commands.values():
                once, more = (seconds([*command, path, count, *last], env=environment) for count in (1, 1 + REPEATS))
                parts.append(f"{(more - once) / REPEATS / base:.2f}")
            print(f"| {path.name} | {path.stat().st_size / 1e6:.1f} | {base * 1000:.0f} | " + " | ".join(parts) + " |")


if __name__ == "__main__":
    main()
