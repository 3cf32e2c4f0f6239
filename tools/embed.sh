#!/bin/sh
# Tests a release archive as its user has it: without the kit, and without this repository's library and programs.
#
# tools/embed.sh ARCHIVE [FOLDER]: unpacks the archive that tools/release.sh made in the folder, which must be empty or missing, and is kept.
# Without FOLDER a temporary folder is used, and removed at the end.
#
# Checks the checksum of the archive, if the file `ARCHIVE.sha256` is there, and the files against BUILD.txt. Then tools/embed/run.sh compiles and
# runs the examples of the archive's bindings/README.md in C, C++, Rust and Python, and compares their output with typed texts. Its environment has
# no variables except those below, and no path on which `rt` or another program of the kit is found.
#
# A line says which examples were not run, since a tool is missing. The last line says how many languages ran. The status is 0 only if everything
# ran as typed, 3 if everything that ran did so, and 1 or 2 after an error.
set -eu
if [ $# -lt 1 ] || [ $# -gt 2 ]; then
    echo 'usage: tools/embed.sh ARCHIVE [FOLDER]' >&2
    exit 2
fi
tools=$(cd "$(dirname "$0")" && pwd)

fail() {
    echo "embed: $*" >&2
    exit 1
}

[ -f "$1" ] || fail "no archive $1. \`sh tools/release.sh\` makes one."
archive=$(cd "$(dirname "$1")" && pwd)/$(basename "$1")
if [ $# = 2 ]; then
    mkdir -p "$2"
    [ -z "$(ls -A "$2")" ] || fail "$2 is not empty"
    folder=$(cd "$2" && pwd)
else
    folder=$(mktemp -d)
    trap 'rm -rf "$folder"' EXIT
fi

# The folder of the kit, or no text if there is none.
kit=$(command -v rt || true)
[ -z "$kit" ] || kit=$(dirname "$(dirname "$(readlink -f "$kit")")")

# is_of_kit PATH: reports whether a path leads into the kit.
is_of_kit() {
    [ -n "$kit" ] || return 1
    case $(readlink -f "$1")/ in
    "$kit"/*) return 0 ;;
    *) return 1 ;;
    esac
}

# links_to FOLDER: makes a folder of links to the programs of a folder, except those of the kit, and prints its path.
links_to() {
    links=$folder/path/$(echo "$1" | tr / _)
    mkdir -p "$links"
    for program in "$1"/*; do
        is_of_kit "$program" || [ "${program##*/}" = rt ] || ln -sf "$program" "$links"
    done
    echo "$links"
}

# path_without_kit: prints the path without the kit. Of a folder that has `rt`, it has a folder of links to the other programs.
path_without_kit() {
    echo "$PATH" | tr : '\n' | while read -r place; do
        if [ -e "$place/rt" ] && ! is_of_kit "$place"; then place=$(links_to "$place"); fi
        is_of_kit "$place" || echo "$place"
    done | paste -sd :
}

unpack() {
    if [ -f "$archive.sha256" ]; then
        (cd "$(dirname "$archive")" && sha256sum --quiet --check "$archive.sha256") || fail "wrong checksum: $archive"
    else
        echo "embed: the archive's checksum is not compared, since there is no $archive.sha256"
    fi
    tar -xzf "$archive" -C "$folder"
    release=$folder/$(ls "$folder")
    [ -f "$release/BUILD.txt" ] || fail "no BUILD.txt in the one folder of $archive"
    (cd "$release" && sha256sum --strict --quiet --check BUILD.txt) || fail "a file differs from BUILD.txt"
    sed -n 's/^[0-9a-f]\{64\}  //p' "$release/BUILD.txt" >"$folder/listed"
    (cd "$release" && find . ! -type d ! -path ./BUILD.txt) | sed 's,^\./,,' | LC_ALL=C sort | diff "$folder/listed" - >&2 ||
        fail "the archive has other files (>) than BUILD.txt lists (<)"
    rm "$folder/listed"
    echo "embed: the files are as BUILD.txt lists them:"
    sed -n '/^# SHA-256/q; s/^# /    /p' "$release/BUILD.txt"
}

unpack
path=$(path_without_kit)
if PATH=$path command -v rt; then fail "rt is on the path $path"; fi
for file in "$release/bin/printwasm" "$release/lib/libwasmprinter.so.1"; do
    # a file that is not linked dynamically needs no library
    ldd "$file" >"$folder/ldd" 2>&1 || true
    if [ -n "$kit" ] && grep -F "$kit/" "$folder/ldd"; then fail "$file needs a library of the kit"; fi
    rm "$folder/ldd"
done
mkdir "$folder/run"
env -i PATH="$path" HOME="$folder/run/home" RUSTUP_HOME="${RUSTUP_HOME:-$HOME/.rustup}" CARGO_HOME="$folder/run/cargo" LC_ALL=C.UTF-8 \
    sh "$tools/embed/run.sh" "$release" "$folder/run"
