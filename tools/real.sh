#!/bin/sh
# Makes modules with the tools of Debian packages, prints each with `printwasm` and every set of options, reassembles the texts with
# `wasm-tools parse`, `wat2wasm` and `wasm-as`, and compares the modules. It is not part of the gate. docs/REAL-FILES.md says what is
# compared and what was found.
#
# tools/real.sh: writes the tables to docs/data/real-files.md, and their summary to standard output. All other files are in
# ${TMPDIR:-/tmp}/wasmprinter-real. The status is 0 whatever the comparison finds, 2 if the program is missing, and another one if installing
# fails. Needs Debian on x86-64, root and the network on the first run (tools/real/install.sh uses apt-get), python3, 5 GB of disk, and some
# GB of memory for each worker.
#
#   PRINTWASM   the program (default: crates/printwasm/out/printwasm; the README says how it is built)
#   PROGRAM_IS  words that describe the program in the data file, besides its commit
#   DATA        the data file (default: docs/data/real-files.md; if ONLY or QUICK is set, real-files.md in the folder of the
#               other files)
#   PEERS       a folder with `wasm-tools`, `wat2wasm`, `wasm2wat`, `wasm-as` and `wasm-opt`. If set, nothing is installed, and modules
#               whose compiler or package is missing are left out
#   JOBS        the number of modules that are processed at once (default: the number of processors)
#   ONLY        a word: only modules with this word in their path or in the name of their group are processed
#   QUICK       a number N: only one module in N of the large groups is processed, and none over 1 MB
#   MEMORY_GB   the limit of memory of each program that is run, in GiB (default: 4)
set -eu
root=$(cd "$(dirname "$0")/.." && pwd)
program=${PRINTWASM:-$root/crates/printwasm/out/printwasm}
work=${TMPDIR:-/tmp}/wasmprinter-real
data=$root/docs/data/real-files.md
[ -z "${ONLY:-}${QUICK:-}" ] || data=$work/real-files.md
data=${DATA:-$data}
if [ ! -x "$program" ]; then
    echo "real: $program is missing: build it (see the README), or set PRINTWASM to a program" >&2
    exit 2
fi
if [ -z "${PEERS:-}" ]; then
    [ -e "$work/installed" ] || sh "$root/tools/real/install.sh" "$work" >&2
    PEERS=$work/peers/bin
    export PEERS
fi
mkdir -p "$work"
PYTHONPATH=$root/tools/common
export PYTHONPATH
exec python3 -B "$root/tools/real/main.py" "$program" "$work" "$data"
