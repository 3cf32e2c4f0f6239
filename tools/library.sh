#!/bin/sh
# Builds the library for C: libwasmprinter.a, libwasmprinter.so.1 and a symbolic link libwasmprinter.so, with everything that they need except the C
# library. tools/link.sh makes them from the archive that `rt lib` makes when it has proved the crate `wasmprinter_c`.
#
# `rt lib` proves the library and the crates below it, in half an hour. So the archive is kept in ~/.cache/wasmprinter (or in XDG_CACHE_HOME),
# under a checksum of the kit's version and of all files of these crates. It is made anew only if one of them has changed.
#
# tools/library.sh FOLDER: writes these to the folder.
set -eu
folder=$1
root=$(cd "$(dirname "$0")/.." && pwd)
kept=${XDG_CACHE_HOME:-${HOME:-/tmp}/.cache}/wasmprinter

# crates: prints the lines of crates.txt of `wasmprinter_c` and of the crates below it.
crates() {
    awk 'function visit(name, words, count, i) {
            if (!(name in line) || seen[name]++) return
            print line[name]
            count = split(line[name], words, /[: ]+/)
            for (i = 2; i <= count; i++) visit(words[i])
        }
        { name = $1; sub(/:$/, "", name); line[name] = $0 }
        END { visit("wasmprinter_c") }' crates.txt
}

# inputs: prints what the archive depends on.
inputs() {
    rt version
    crates
    for crate in $(crates | sed 's/[: ].*//'); do
        find "crates/$crate" \( -name out -o -name must-fail -o -name mutants \) -prune -o -type f -print | LC_ALL=C sort | xargs sha256sum
    done
}
work=$(mktemp -d)
trap 'rm -rf "$work"' EXIT
(cd "$root" && inputs) >"$work/inputs"
printer=$kept/$(sha256sum <"$work/inputs" | cut -d ' ' -f 1).a
if [ ! -e "$printer" ]; then
    (cd "$root/crates/wasmprinter_c" && rt lib)
    (cd "$root" && inputs) | cmp - "$work/inputs" || { echo "library: a source changed meanwhile" >&2; exit 1; }
    mkdir -p "$kept"
    # a rename, so that an interrupted copy is not taken for the archive
    cp "$root/crates/wasmprinter_c/out/libwasmprinter_c.a" "$printer.$$"
    mv "$printer.$$" "$printer"
fi
sh "$root/tools/link.sh" "$printer" "$(dirname "$(rt doc)")/c/liblibc_c.a" "$folder"
