#!/bin/sh
# Compares the definitions (crates/wasmprinter_spec) with the tools of others, over texts and modules that others made. The prover computes
# both sides. It is not part of the gate. docs/DEFINITIONS.md says what is compared, and docs/data/definitions.md has the tables.
#
# tools/definitions.sh [FOLDER..]: takes the suites and modules of Debian's packages, and the modules and texts in the FOLDERs. Writes all files
# to ${TMPDIR:-/tmp}/wasmprinter-definitions, and the tables to tables.md there and to standard output. The texts and bytes of each case that
# disagrees are in the folder `disagreed` there. The status is 0 whatever the comparison finds, and another one if installing or the prover fails.
#
# tools/definitions.sh --features: computes instead which features of the text format the reader covers, and writes the table of
# docs/data/text-features.md to standard output.
#
# Needs `rt`, python3, git, and on the first run Debian on x86-64, root and the network (tools/definitions/install.sh uses apt-get).
#
#   PEERS       a folder with `wasm-tools`, `wat2wasm` and `wasm2wat` (default: those of Debian unstable, which are fetched)
#   BUDGET_KB   the size of the texts of each source that are compared, in kB, the smallest modules first (default: 500)
#   TEXT_LIMIT  the size of the largest text that is compared, in bytes (default: 30000)
#   ONLY        a word: only sources with this word in their name are compared
#   JOBS        the number of modules that the tools process at once (default: the number of processors)
set -eu
root=$(cd "$(dirname "$0")/.." && pwd)
work=${TMPDIR:-/tmp}/wasmprinter-definitions
[ -e "$work/installed" ] || sh "$root/tools/definitions/install.sh" "$work" >&2
PEERS=${PEERS:-$work/peers/bin}
PYTHONPATH=$root/tools/real # it has modules that are used here too
export PEERS PYTHONPATH
if [ "${1:-}" = --features ]; then
    exec python3 -B "$root/tools/definitions/features.py" "$root" "$work"
fi
exec python3 -B "$root/tools/definitions/main.py" "$root" "$work" "$@"
