#!/bin/sh
# Builds and installs the programs printwasm and wasm2text and the library for C.
#
#   tools/install.sh build FOLDER              proves the crates that changed, and builds the programs and the library in the folder
#   tools/install.sh install FOLDER [PREFIX]   installs what was built in the folder; needs no `rt` and no compiler
#   tools/install.sh uninstall [PREFIX]        removes the installed files
#   tools/install.sh [PREFIX]                  builds and installs
#   tools/install.sh stage FOLDER TO           puts the same files into the folder TO, for tools/release.sh
#
# `build` also leaves BUILD.txt in the folder: the commit, whether files differ from it, and the kit. `stage` copies it, and fails if the commit
# or these files have changed since. The staged file for pkg-config works in any place.
#
# The prefix is /usr/local by default. DESTDIR, if set, is prepended to the path of each file that is installed or removed.
#
#   PREFIX/bin/printwasm
#   PREFIX/bin/wasm2text
#   PREFIX/include/wasmprinter.h
#   PREFIX/include/wasmprinter.hpp
#   PREFIX/lib/cmake/wasmprinter/wasmprinter-config-version.cmake
#   PREFIX/lib/cmake/wasmprinter/wasmprinter-config.cmake
#   PREFIX/lib/libwasmprinter.a
#   PREFIX/lib/libwasmprinter.so
#   PREFIX/lib/libwasmprinter.so.1
#   PREFIX/lib/pkgconfig/wasmprinter.pc
#   PREFIX/share/bash-completion/completions/printwasm
#   PREFIX/share/bash-completion/completions/wasm2text
#   PREFIX/share/doc/wasmprinter/LICENSE
#   PREFIX/share/man/man1/printwasm.1
#   PREFIX/share/man/man1/wasm2text.1
#   PREFIX/share/zsh/site-functions/_printwasm
#   PREFIX/share/zsh/site-functions/_wasm2text
set -eu
root=$(cd "$(dirname "$0")/.." && pwd)
work=$(mktemp -d)
trap 'rm -rf "$work"' EXIT

# usage: prints the forms of the command, which are above, and ends with status 2.
usage() {
    sed -n 's/^#   tools/tools/p' "$root/tools/install.sh" >&2
    exit 2
}

# number_of NAME: prints the number that the header defines.
number_of() {
    sed -n "s/^#define $1 \([0-9]*\)$/\1/p" "$root/include/wasmprinter.h"
}

# fail WORD..: prints a message, and ends with status 1.
fail() {
    echo "install: $*" >&2
    exit 1
}

# sources: prints the commit of the checkout, its date, and whether files differ from it.
sources() {
    if ! TZ=UTC git -C "$root" log -1 --date=iso-strict-local --format='# Commit: %H%n# Date of the commit: %cd'; then
        echo '# Commit: unknown'
        return
    fi
    changed=$(git -C "$root" status --porcelain | wc -l)
    case $changed in
    0) echo '# Work tree: clean' ;;
    *) echo "# Work tree: files that differ from the commit: $changed" ;;
    esac
}

# record FOLDER: writes what was built from which sources to BUILD.txt, unless they changed meanwhile.
record() {
    rm -f "$1/BUILD.txt"
    sources >"$work/sources_after"
    if cmp -s "$work/sources" "$work/sources_after"; then
        rt version | sed 's/^/# Kit: /' | cat "$work/sources" - >"$1/BUILD.txt"
    else
        echo "install: the commit or the work tree changed meanwhile, so tools/release.sh will not accept $1" >&2
    fi
}

# build FOLDER
build() {
    mkdir -p "$1"
    sources >"$work/sources"
    # `rt run` leaves a program in the folder `out` of its crate
    printf '\000asm\001\000\000\000' >"$work/empty.wasm"
    for program in printwasm wasm2text; do
        (cd "$root/crates/$program" && rt run -- "$work/empty.wasm")
        cp "$root/crates/$program/out/$program" "$1/$program"
    done
    sh "$root/tools/library.sh" "$1"
    record "$1"
}

# describe: writes the files for pkg-config and CMake to the work folder.
describe() {
    number=$(number_of WASMPRINTER_VERSION)
    version=$((number / 1000000)).$((number / 1000 % 1000)).$((number % 1000))
    cat >"$work/wasmprinter.pc" <<END_OF_FILE
prefix=$prefix
libdir=\${prefix}/lib
includedir=\${prefix}/include
revision=r$(number_of WASMPRINTER_REVISION)

Name: wasmprinter
Description: Prints WebAssembly modules in the text format
Version: $version
Libs: -L\${libdir} -lwasmprinter
Cflags: -I\${includedir}
END_OF_FILE
    sed "s/@VERSION@/$version/" "$root/tools/cmake/wasmprinter-config-version.cmake" >"$work/wasmprinter-config-version.cmake"
}

# each ACTION FOLDER: calls the action with the mode, the source and the target of each file. The target is relative to the prefix.
each() {
    for program in printwasm wasm2text; do
        "$1" 755 "$2/$program" "bin/$program"
        "$1" 644 "$root/man/$program.1" "share/man/man1/$program.1"
        "$1" 644 "$root/completions/$program.bash" "share/bash-completion/completions/$program"
        "$1" 644 "$root/completions/_$program" "share/zsh/site-functions/_$program"
    done
    "$1" 644 "$2/libwasmprinter.a" lib/libwasmprinter.a
    "$1" 755 "$2/libwasmprinter.so.1" lib/libwasmprinter.so.1
    "$1" 644 "$work/wasmprinter.pc" lib/pkgconfig/wasmprinter.pc
    "$1" 644 "$work/wasmprinter-config-version.cmake" lib/cmake/wasmprinter/wasmprinter-config-version.cmake
    "$1" 644 "$root/tools/cmake/wasmprinter-config.cmake" lib/cmake/wasmprinter/wasmprinter-config.cmake
    "$1" 644 "$root/include/wasmprinter.h" include/wasmprinter.h
    [ ! -e "$root/bindings/cpp/wasmprinter.hpp" ] || "$1" 644 "$root/bindings/cpp/wasmprinter.hpp" include/wasmprinter.hpp
    "$1" 644 "$root/LICENSE" share/doc/wasmprinter/LICENSE
}

# need MODE SOURCE TARGET: fails if the source is missing.
need() {
    [ ! -s "$2" ] || return 0
    case $2 in
    "$built"/*) fail "missing: $2. \`sh tools/install.sh build $built\` builds the programs and the library. On four processors this takes an" \
        "hour to an hour and a half the first time, and seconds if no source changed since." ;;
    *) fail "missing: $2" ;;
    esac
}

# put MODE SOURCE TARGET
put() {
    install -D -m "$1" "$2" "$to/$3"
}

# remove MODE SOURCE TARGET
remove() {
    rm -f "$to/$3"
}

# put_all FOLDER: puts all files under `to`.
put_all() {
    built=$1
    describe
    each need "$1"
    each put "$1"
    ln -sf libwasmprinter.so.1 "$to/lib/libwasmprinter.so"
}

# install_from FOLDER
install_from() {
    put_all "$1"
    echo "install: the programs, the library and the headers are under $to"
    case ${DESTDIR:-}$prefix in
    /usr | /usr/local) echo "install: run ldconfig as root, so that programs find libwasmprinter.so.1" ;;
    esac
}

# stage FOLDER TO
stage() {
    to=$2
    # pkg-config replaces this by the folder of the file
    # shellcheck disable=SC2016
    prefix='${pcfiledir}/../..'
    put_all "$1"
    again="Run \`sh tools/install.sh build $1\` again: this takes seconds if no source changed."
    [ -s "$1/BUILD.txt" ] || fail "missing: $1/BUILD.txt. $again"
    sources >"$work/sources"
    grep -v '^# Kit: ' "$1/BUILD.txt" | cmp -s - "$work/sources" || fail "the commit or the work tree is not that of $1/BUILD.txt. $again"
    put 644 "$1/BUILD.txt" BUILD.txt
}

uninstall() {
    each remove "$work"
    rm -f "$to/lib/libwasmprinter.so"
    for folder in lib/cmake/wasmprinter share/doc/wasmprinter; do
        [ ! -d "$to/$folder" ] || rmdir "$to/$folder"
    done
    echo "install: the files under $to are removed"
}

# choose_prefix [PREFIX]: sets `prefix`, and `to`, the folder under which files are put.
choose_prefix() {
    prefix=${1:-/usr/local}
    case $prefix in
    -*) usage ;;
    /*) ;;
    *) prefix=$PWD/$prefix ;;
    esac
    to=${DESTDIR:-}$prefix
}

case ${1:-}:$# in
build:2)
    build "$2"
    ;;
install:2 | install:3)
    choose_prefix "${3:-}"
    install_from "$2"
    ;;
uninstall:1 | uninstall:2)
    choose_prefix "${2:-}"
    uninstall
    ;;
stage:3)
    stage "$2" "$3"
    ;;
build:* | install:* | uninstall:* | stage:*)
    usage
    ;;
*:0 | *:1)
    choose_prefix "${1:-}"
    build "$work/built"
    install_from "$work/built"
    ;;
*)
    usage
    ;;
esac
