"""Makes and finds the modules: compiled from C and C++, assembled from the texts in `wat`, and from Debian packages."""

import glob
import hashlib
import os
import shutil

from running import found, read, run, write
from wasm import MAGIC, members

HERE = os.path.dirname(os.path.abspath(__file__))
LINKED = "-nostdlib -Wl,--no-entry -Wl,--export-all -Wl,--allow-undefined".split()
SHARED = "-matomics -mbulk-memory -Wl,--shared-memory -Wl,--max-memory=1048576 -Wl,--import-memory"
MANY = "-mbulk-memory -mreference-types -mnontrapping-fptoint -msign-ext -mmultivalue -Xclang -target-abi -Xclang experimental-mv -mwide-arithmetic"
# The name of each compiled module, its source, and the compiler's arguments. With `-c` the module is an object file, with relocations.
COMPILED = (
    ("plain-O0", "plain.c", "-O0"), ("plain-O0-g", "plain.c", "-O0 -g"), ("plain-O2", "plain.c", "-O2"), ("plain-O2-g", "plain.c", "-O2 -g"),
    ("plain-Os", "plain.c", "-Os -Wl,--compress-relocations -Wl,--strip-all"), ("plain-object", "plain.c", "-O1 -g -c"),
    ("plain-wasm64", "plain.c", "-O2 --target=wasm64"), ("plain-shared-library", "plain.c", "-O2 -fPIC -Wl,-shared -Wl,--experimental-pic"),
    ("vectors", "vectors.c", "-O2 -msimd128"), ("vectors-O0", "vectors.c", "-O0 -msimd128"), ("relaxed", "relaxed.c", "-O2 -mrelaxed-simd"),
    ("threads", "threads.c", f"-O2 {SHARED}"), ("threads-g", "threads.c", f"-O1 -g {SHARED}"),
    ("bulk", "bulk.c", f"-O1 {MANY}"), ("tails", "tails.c", "-O2 -mtail-call"),
    ("throws", "throws.cpp", "-O1 -fwasm-exceptions -mllvm -wasm-use-legacy-eh=false -c"),
    ("throws-legacy", "throws.cpp", "-O1 -fwasm-exceptions -mllvm -wasm-use-legacy-eh=true -c"),
)
ASSEMBLERS = (
    ("wasm-tools", ("parse",)), ("wasm-as", ("-all", "-g")),
    ("wat2wasm", ("--debug-names", *(f"--enable-{it}" for it in "threads function-references code-metadata gc custom-page-sizes wide-arithmetic".split()))),
)
RUST = "/usr/lib/rustlib/wasm32-unknown-unknown/lib"
OLDER = "spectest/v1/"  # an older version of the tests in `spectest/v2/`
SINGLE = 1000  # in a package with fewer modules, every module is in the row of its file name


class Module:
    """A module to print: its group, its row of the table, its file and its size in bytes."""

    def __init__(self, group, row, path):
        self.group, self.row, self.path, self.size = group, row, path, os.path.getsize(path)


def newest(tool):
    """Returns the path of an LLVM program in its highest installed version, or `None`."""
    known = [path for path in glob.glob(f"/usr/bin/{tool}-[0-9]*") if path.rsplit("-", 1)[1].isdigit()]
    return max(known, key=lambda path: int(path.rsplit("-", 1)[1]), default=found(tool))


def compilation(compiler, words):
    """Returns the command of a compiler. It has an empty path, since clang runs a `wasm-opt` that it finds there."""
    return ["env", "PATH=", compiler, "--target=wasm32", *words]


def compiled(folder, missing):
    """Returns the modules compiled from the sources in `c`. Appends the reason to `missing` if one can't be compiled."""
    made = []
    for name, source, words in COMPILED:
        compiler, out = newest("clang++" if source.endswith("cpp") else "clang"), os.path.join(folder, f"c-{name}.wasm")
        words = words.split()
        linked = [] if "-c" in words else [f"-fuse-ld={newest('wasm-ld')}", *LINKED]
        ran = run(compilation(compiler, [*linked, *words, os.path.join(HERE, "c", source), "-o", out])) if compiler else None
        if ran is None or ran.status != 0:
            missing.append(f"`{name}` couldn't be compiled: {ran.fault() if ran else 'no clang'}")
        else:
            made.append(Module("compiled from C and C++", name, out))
    return made


def whole_library(folder, missing):
    """Links every object of Debian's Rust core and allocating libraries into one module. Appends the reason to `missing` if that fails."""
    archives = sorted(glob.glob(f"{RUST}/liballoc-*.rlib") + glob.glob(f"{RUST}/libcore-*.rlib"))
    parts = [content for path in archives for _, content in members(read(path))]
    objects = [write(os.path.join(folder, "parts", f"{count}.o"), content) for count, content in enumerate(parts)]
    linker, out = newest("wasm-ld"), os.path.join(folder, "linked-rust-library.wasm")
    words = "--no-entry --export-all --allow-undefined --allow-multiple-definition --no-gc-sections".split()
    ran = run([linker, *words, *objects, "-o", out]) if linker and objects else None
    if ran is None or ran.status != 0:
        missing.append(f"Rust's library couldn't be linked: {ran.fault() if ran else 'no linker or no library'}")
        return []
    return [Module("linked from others' archives", "Rust's core and allocating library, whole", out)]


def assembled(folder, missing):
    """Returns the modules that each assembler makes of the texts in `wat`, without duplicates. Appends texts that none reads to `missing`."""
    made, seen = [], set()
    for text in sorted(glob.glob(os.path.join(HERE, "wat", "*.wat"))):
        name, read_by = os.path.basename(text)[:-4], []
        for tool, words in ASSEMBLERS:
            out = os.path.join(folder, f"wat-{name}-{tool}.wasm")
            if not found(tool) or run([found(tool), *words, text, "-o", out]).status != 0:
                continue
            read_by.append(tool)
            if read(out) not in seen:
                seen.add(read(out))
                made.append(Module("assembled from texts", f"{name}, {tool}", out))
        if not read_by:
            missing.append(f"`{name}.wat` is read by no assembler")
    return made


def kept_once(paths, seen):
    """Returns the files that are not empty and whose contents are not in `seen` yet, and adds their digests to it."""
    kept = []
    for path in paths:
        digest = hashlib.sha256(read(path)).digest()
        if digest not in seen and os.path.getsize(path):
            seen.add(digest)
            kept.append(path)
    return kept


def packaged(folder):
    """Returns the modules of the packages that are unpacked in a folder. In a large package, small modules share a row for each part of its tests."""
    made, seen = [], set()
    for package in sorted(os.listdir(folder)) if os.path.isdir(folder) else []:
        paths = sorted(it for it in glob.glob(os.path.join(folder, package, "**", "*.wasm"), recursive=True) if OLDER not in it)
        few = len(paths) < SINGLE
        for path in kept_once([p for p in paths if os.path.isfile(p)], seen):
            part = path.split("spectest/")[1].split("/")[0] if "spectest/" in path else "other"
            if few or os.path.getsize(path) > 100_000:
                made.append(Module("packaged by others", f"{package}: {os.path.basename(path)}", path))
            else:
                made.append(Module("sets of small ones", f"{package}: {part}", path))
    return made


def archived(folder):
    """Returns the objects in the archives of installed packages. Writes each to its own file."""
    made, seen = [], set()
    patterns = ("/usr/lib/wasm32-wasi/*.[ao]", "/usr/lib/llvm-*/lib/wasm32-wasi/*.a", "/usr/lib/llvm-*/lib/clang/*/lib/wasi/*.a",
                *(f"{RUST}/lib{name}-*.rlib" for name in ("compiler_builtins", "alloc", "core")))
    for path in sorted(it for pattern in patterns for it in glob.glob(pattern)):
        data, row = read(os.path.realpath(path)), "/".join(path.split("/")[-2:]).replace("lib/", "")
        row = row.rsplit("-", 1)[0] if path.endswith(".rlib") else row
        for count, (_, content) in enumerate([("", data)] if data[:8] == MAGIC else members(data)):
            digest = hashlib.sha256(content).digest()
            if digest not in seen:
                seen.add(digest)
                made.append(Module("objects in archives", row, write(os.path.join(folder, row.replace("/", "-"), f"{count}.o"), content)))
    return made


def all_modules(work, missing):
    """Returns all modules. Empties the folders `made` and `objects` of the working folder first."""
    for name in ("made", "objects"):
        shutil.rmtree(os.path.join(work, name), ignore_errors=True)
        os.makedirs(os.path.join(work, name))
    made = os.path.join(work, "made")
    found_ones = packaged(os.path.join(work, "packages")) + archived(os.path.join(work, "objects"))
    return compiled(made, missing) + assembled(made, missing) + whole_library(made, missing) + found_ones
