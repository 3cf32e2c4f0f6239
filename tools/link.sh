#!/bin/sh
# Links the library for C: libwasmprinter.a, libwasmprinter.so.1, and libwasmprinter.so, a symbolic link to it.
#
# tools/link.sh ARCHIVE HEAP FOLDER: writes these to the folder. ARCHIVE is what `rt lib` makes of the crate `wasmprinter_c`. HEAP has the
# toolchain's functions that call malloc, realloc and free. Uses `cc`, and `ld`, `objcopy`, `nm` and `ar` of GNU binutils.
#
# Fails if a file exports other names than those of the functions in include/wasmprinter.h, or if the library has a malloc, a realloc or a free
# of its own: a program may replace or wrap these.
#
# The functions of ARCHIVE have no unwind tables (.eh_frame): a debugger or a profiler finds no caller of theirs.
set -eu
archive=$1
heap=$2
folder=$3
header=$(dirname "$0")/../include/wasmprinter.h
work=$(mktemp -d)
trap 'rm -rf "$work"' EXIT
mkdir -p "$folder"

# expect FILE WHAT: compares the last word of each line of the input with the lines of a file of the work folder, which are sorted.
expect() {
    sed 's/.* //' | LC_ALL=C sort >"$work/found"
    cmp -s "$work/$1" "$work/found" && return
    echo "link: wrong $2 (<), expected (>):" >&2
    diff "$work/found" "$work/$1" >&2
}

sed -n '/^WASMPRINTER_INLINE/!s/^[A-Za-z].* \(wasmprinter_[a-z_]*\)(.*/\1/p' "$header" | LC_ALL=C sort >"$work/functions"

# One object, in which every symbol is local except the functions of the header: other libraries of this toolchain, and programs, may have
# functions of the same names. Its sections stay separate, for --gc-sections. Groups of sections don't: a linker merges groups by their names.
ld -r --force-group-allocation --whole-archive "$archive" "$heap" -o "$work/all.o"
objcopy --keep-global-symbols="$work/functions" "$work/all.o" "$work/wasmprinter.o"
rm -f "$folder/libwasmprinter.a"
ar rcsD "$folder/libwasmprinter.a" "$work/wasmprinter.o"

# The number in the soname rises with each release that removes or changes a function that is exported, or a record of the header. If the linker
# can mark the library as one for x86-64-v2, the loader refuses it on older processors.
set -- -shared -Wl,-soname,libwasmprinter.so.1 -Wl,-z,defs -Wl,-z,now -Wl,--gc-sections
if cc "$@" -Wl,-z,x86-64-v2 -Wl,--fatal-warnings -o "$work/marked.so" -x c /dev/null 2>"$work/log"; then
    set -- "$@" -Wl,-z,x86-64-v2
fi
cc "$@" -o "$folder/libwasmprinter.so.1" "$work/wasmprinter.o"
ln -sf libwasmprinter.so.1 "$folder/libwasmprinter.so"

printf 'free\nmalloc\nrealloc\n' >"$work/allocator"
nm -g --defined-only "$work/wasmprinter.o" | expect functions 'names in libwasmprinter.a'
nm -D --defined-only "$folder/libwasmprinter.so.1" | expect functions 'names in libwasmprinter.so.1'
nm -u "$work/wasmprinter.o" | grep -Ew 'malloc|calloc|realloc|free' | expect allocator 'functions that allocate'
