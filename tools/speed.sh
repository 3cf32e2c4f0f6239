#!/bin/sh
# Measures the time, the memory and the instructions of `printwasm`, compares them with those of `wasm-tools print` and `wasm2wat`, and
# reports which limits are missed. It is not part of the gate, and its status is 0 whatever it measures. docs/SPEED.md says what is measured
# and what was found.
#
# tools/speed.sh [FILE..]: measures generated modules of three sizes, the FILEs, and each module of over 100 KB under
# ${TMPDIR:-/tmp}/wasmprinter-real, if that folder exists (tools/real.sh makes it). Writes the tables to docs/data/speed.md, and their summary
# to standard output. Nothing else should run on the machine meanwhile.
#
#   PRINTWASM     the program (default: crates/printwasm/out/printwasm; the README says how it is built)
#   PROGRAM_IS    words that describe the program in the data file, besides its commit
#   DATA          the data file (default: docs/data/speed.md)
#   PEERS         a folder that is searched for `wasm-tools` and `wasm2wat` before the path (default: that of tools/real.sh, if it exists)
#   SIZES         the sizes of the generated modules in KB (default: "100 1000 10000")
#   INSTRUCTIONS  the size in MB of the largest module for which instructions are counted (default: 20; 0: none). Counting takes about 25
#                 times as long as a run
#
# Needs python3. Uses `wasm-tools` and `wasm2wat` (Debian: `apt-get install wasm-tools wabt`, the first in newer releases only); a missing one
# has no columns. Uses GNU time and valgrind (`apt-get install time valgrind`); without the first, each peak of memory is reported as at least
# that of python3, and without the second there are no instructions.
set -eu
root=$(cd "$(dirname "$0")/.." && pwd)
program=${PRINTWASM:-$root/crates/printwasm/out/printwasm}
work=${TMPDIR:-/tmp}/wasmprinter-speed
real=${TMPDIR:-/tmp}/wasmprinter-real
if [ ! -x "$program" ]; then
    echo "speed: $program is missing: build it (see the README), or set PRINTWASM to a program" >&2
    exit 2
fi
for file; do
    if [ ! -r "$file" ]; then
        echo "speed: can't read $file" >&2
        exit 2
    fi
done
mkdir -p "$work"
PEERS=${PEERS:-$real/peers/bin}
PYTHONPATH=$root/tools/common
export PEERS PYTHONPATH
exec python3 -B "$root/tools/speed/main.py" "$program" "$work" "$real" "${DATA:-$root/docs/data/speed.md}" "$@"
