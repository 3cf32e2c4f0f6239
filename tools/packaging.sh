#!/bin/sh
# Tests tools/link.sh and tools/install.sh.
#
# tools/packaging.sh: needs no `rt`, since a library (tools/packaging) and empty programs stand in for the proved ones.
# tools/packaging.sh FOLDER: uses the library and the programs that `tools/install.sh build FOLDER` has built.
#
# Checks
#
# - the library: its soname, that its names don't clash with those of a program, that a program can wrap malloc, that --gc-sections leaves out
#   what a program doesn't call, and that tools/link.sh refuses a library without one of the header's functions;
# - the installed files: which they are, programs that are built by pkg-config and CMake, that `uninstall` removes each file, and that nothing is
#   installed if the program is missing;
# - the options in the manual pages and in the completions, and the messages in the manual page of printwasm.
#
# Uses `cc`, GNU binutils, pkg-config and bash, and cmake and groff if they are there. Takes seconds.
set -eu
root=$(cd "$(dirname "$0")/.." && pwd)
work=$(mktemp -d)
trap 'rm -rf "$work"' EXIT
sources=$root/tools/packaging
built=$work/built
[ $# = 0 ] || built=$(cd "$1" && pwd)
cd "$work"

fail() {
    echo "packaging: $*" >&2
    exit 1
}

# expect WHAT FILE: compares the file with standard input.
expect() {
    diff "$2" - >&2 || fail "wrong $1 (<), expected (>)"
}

# expect_text PROGRAM: runs the program, which must print the text of the empty module.
expect_text() {
    echo '(module)' >text
    "$1" | cmp - text || fail "$1 does not print the text"
}

# archive NAME FLAG..: makes the archive of the printer, as `rt lib` does.
archive() {
    name=$1
    shift
    cc -O2 -fPIC -ffunction-sections -Wall -Wextra -Wpedantic -Werror "$@" -I"$root/include" -c "$sources/printer.c" -o "$name.o"
    ar rcs "$name.a" "$name.o"
}

# compile PROGRAM FLAG..: compiles a program with the static library.
compile() {
    program=$1
    shift
    cc -O2 -Wall -Wextra -Wpedantic -Werror -I"$root/include" "$@" "$built/libwasmprinter.a" -o "$program"
}

archive printer
cc -O2 -fPIC -Wall -Wextra -Wpedantic -Werror -c "$sources/heap.c" -o heap.o
ar rcs heap.a heap.o
if [ $# = 0 ]; then
    sh "$root/tools/link.sh" printer.a heap.a built
    printf '#!/bin/sh\n' | tee built/printwasm >built/wasm2text
fi
readelf -d "$built/libwasmprinter.so.1" | grep -q 'soname: \[libwasmprinter.so.1\]' || fail "wrong soname"
[ "$(readlink "$built/libwasmprinter.so")" = libwasmprinter.so.1 ] || fail "libwasmprinter.so is no link to libwasmprinter.so.1"
compile ./caller "$sources/caller.c"
expect_text ./caller
compile ./wrapping -DWRAPS -Wl,--wrap=malloc "$sources/caller.c"
expect_text ./wrapping
compile ./preview -std=c99 "$root/bindings/c/preview.c"
./preview >previewed
printf '(module)\n(9 of 9 bytes)\n' | expect "preview" previewed
compile ./version -Wl,--gc-sections "$sources/version.c"
./version || fail "wrong version"
nm version | sed -n 's/.* \(rattle_\|wasmprinter_\)/\1/p' >names
echo wasmprinter_version | expect "functions in a program that calls one" names
archive without -DWITHOUT_REVISION
if sh "$root/tools/link.sh" without.a heap.a refused 2>log; then fail "a library without a function is not refused"; fi
grep -q wasmprinter_revision log || fail "the message does not name the function"

# the installed files are those that the head of tools/install.sh lists
DESTDIR=$work/staged sh "$root/tools/install.sh" install "$built" /opt/printer >log
(cd staged/opt/printer && find . ! -type d | sed 's,^\./,,' | LC_ALL=C sort) >installed
sed -n 's,^#   PREFIX/,,p' "$root/tools/install.sh" | expect "installed files" installed
DESTDIR=$work/staged sh "$root/tools/install.sh" uninstall /opt/printer >log
[ -z "$(find staged ! -type d)" ] || fail "files are left after uninstall"

mkdir nothing
if sh "$root/tools/install.sh" install nothing refused 2>log; then fail "a folder without a program is not refused"; fi
grep -q 'tools/install.sh build nothing' log || fail "the message does not name the command that builds"
[ ! -e refused/lib ] || fail "files are installed without a program"

sh "$root/tools/install.sh" install "$built" there >log
export PKG_CONFIG_PATH="$work/there/lib/pkgconfig"
[ "$(pkg-config --modversion wasmprinter)-$(pkg-config --variable=revision wasmprinter)" = 0.263.0-r1 ] || fail "wrong version in wasmprinter.pc"
# shellcheck disable=SC2046 # each word is a flag
cc "$sources/caller.c" $(pkg-config --cflags --libs wasmprinter) -Wl,-rpath,"$work/there/lib" -o by_pkg_config
expect_text ./by_pkg_config
if command -v cmake >cmake.log; then
    cp "$sources/CMakeLists.txt" "$sources/caller.c" .
    cmake -S . -B cmake -DCMAKE_PREFIX_PATH="$work/there" >cmake.log
    cmake --build cmake >>cmake.log || fail "$(cat cmake.log)"
    expect_text cmake/caller
    expect_text cmake/caller_static
fi

# expect_options PROGRAM SOURCE: checks that the options in the manual page and in the completions of a program are those in the source.
expect_options() {
    grep -o -e '--[a-z][a-z-]*' "$2" | LC_ALL=C sort -u >options
    sed 's/\\-/-/g; s/\\(aq/'"'"'/g' "$root/man/$1.1" >manual
    for file in "$root/completions/$1.bash" "$root/completions/_$1" manual; do
        # `--x` is the name of a file in a manual page
        grep -o -e '--[a-z][a-z-]*' "$file" | grep -vx -e --x | LC_ALL=C sort -u >options_here
        expect "options in $file" options_here <options
    done
    if command -v groff >log; then
        groff -man -ww -z "$root/man/$1.1" 2>warnings
        expect "warnings about the manual page" warnings </dev/null
    fi
}

# the options are those of the usage line and of the help, and the messages those of the README
expect_options wasm2text "$root/crates/wasm2text/src/help.rt"
sed -n "s/^echo '\(usage: printwasm .*\)' >err$/\1/p" "$root/tools/program.sh" >usage
expect_options printwasm usage
# shellcheck disable=SC2016 # the backquotes are those of the table
sed -n '/^| Message |/,/^$/s/^| \(`[^|]*\) | .*/\1/p' "$root/README.md" | grep -o '`[^`]*`' | tr -d '`' >messages
[ "$(wc -l <messages)" -ge 13 ] || fail "no table of messages in the README"
while read -r message; do
    grep -qxF -e ".B $message" manual || fail "no message in the manual page: $message"
done <messages
bash -c '. "$0"; COMP_WORDS=(printwasm --f) COMP_CWORD=1; _printwasm; echo "${COMPREPLY[@]}"' "$root/completions/printwasm.bash" >completed
echo --fold | expect "completion in bash" completed
for words in '--color al' '--color = al' '-f --color = al'; do
    # shellcheck disable=SC2086 # a word for each argument
    bash -c '. "$0"; COMP_WORDS=(wasm2text "$@"); COMP_CWORD=$#; _wasm2text; echo "${COMPREPLY[@]}"' "$root/completions/wasm2text.bash" $words >completed
    echo always | expect "completion in bash: $words" completed
done
echo 'packaging: the library and the installed files are as typed'
