# Compiles the tests in C and C++, for tools/bindings.sh and tools/bindings_long.sh, which read this file by `.` at the top of the repository. They set
#
#   cc, cxx    the compilers
#   flags      their flags
#   library    the library for C, static or shared
#   archive    the static library
#   made       the folder for the programs
# shellcheck shell=sh disable=SC2086,SC2154 # each flag is a word
counted=-Wl,--wrap=malloc,--wrap=realloc,--wrap=free

# each_test ACTION: calls `ACTION TEST WORD..` for each test: the name of its file in bindings/c, and the flags and files that it is linked with.
each_test() {
    "$1" test "$library"
    "$1" events "$library"
    "$1" misuse "$library"
    "$1" wrappers
    "$1" memory "$counted" "$archive"
    "$1" guard "$library"
    "$1" limit "$library"
    "$1" threads -pthread "$library"
}

# compile_both NAME WORD..: compiles bindings/c/NAME.c in C and in C++ to the programs NAME_c and NAME_cpp.
compile_both() {
    name=$1
    shift
    "$cc" -std=c99 $flags "bindings/c/$name.c" "$@" -o "$made/${name}_c"
    "$cxx" -std=c++17 $flags -x c++ "bindings/c/$name.c" -x none "$@" -o "$made/${name}_cpp"
}

# compile_hpp STANDARD: compiles the test of wasmprinter.hpp in a standard of C++ to the program hpp_STANDARD.
compile_hpp() {
    "$cxx" "-std=c++$1" $flags -Ibindings/cpp bindings/cpp/test.cpp "$counted,--wrap=wasmprinter_raw_print" "$archive" -o "$made/hpp_$1"
}
