#!/bin/sh
# Tests the bindings in bindings/: builds the library, and checks in C, C++, Rust and Python that every case of bindings/cases.txt prints as
# typed. In C and C++ it also checks the events of each case (events.c), calls that the header refuses (misuse.c), the inline functions of the header
# without the library (wrappers.c) and that the compiler warns of null pointers (faults.c), lets allocations fail (memory.c), prints between guard
# pages (guard.c), with limits (limit.c), in many threads (threads.c) and in colors (color.c). tools/bindings_long.sh runs the tests in C and C++ under
# sanitizers and valgrind.
# Uses the machine's `cc`, `c++`, `cargo --offline` and `python3`. Fails if one of them is missing or if a case differs.
set -eu
cd "$(dirname "$0")/.."
for tool in cc c++ cargo python3; do
    if ! command -v "$tool" >/dev/null; then
        echo "bindings: no $tool on this machine" >&2
        exit 1
    fi
done
work=$(mktemp -d)
trap 'rm -rf "$work"' EXIT
sh tools/library.sh "$work" >"$work/log" 2>&1 || { cat "$work/log"; exit 1; }

cc=cc
cxx=c++
flags='-O2 -Wall -Wextra -Wpedantic -Werror -Iinclude'
library=$work/libwasmprinter.a
archive=$library
made=$work
. tools/common/c_tests.sh

# tested TEST WORD..: compiles a test in C and in C++, and runs both programs. Some read the cases.
tested() {
    compile_both "$@"
    "$work/$1_c" bindings/cases.txt
    "$work/$1_cpp" bindings/cases.txt
}

each_test tested
for standard in 17 20; do
    compile_hpp "$standard"
    "$work/hpp_$standard" bindings/cases.txt
done

# warned FAULT: reports whether the C compiler warns of a fault.
warned() {
    ! cc -std=c99 $flags "-DFAULT=$1" -c bindings/c/faults.c -o "$work/faults.o" 2>"$work/reported" && grep -q nonnull "$work/reported"
}

cc -std=c99 $flags -DFAULT=0 -c bindings/c/faults.c -o "$work/faults.o"
for fault in 1 2 3 4 5 6 7 8; do
    warned "$fault" || { echo "bindings: the compiler does not warn of the null pointer $fault of faults.c" >&2; exit 1; }
done
echo "c: the compiler warns of each null pointer that the header does not allow"
cc -std=c99 $flags -c bindings/c/texts.c -o "$work/texts.o"
c++ -std=c++17 $flags -x c++ -c bindings/c/texts.c -o "$work/texts.o"
cc -std=c99 $flags -c bindings/c/fuzz.c -o "$work/fuzz.o"
cc -std=c99 $flags bindings/c/example.c "$library" -o "$work/example_c"
c++ -std=c++17 $flags -x c++ -c bindings/c/fuzz.c -o "$work/fuzz.o"
c++ -std=c++17 $flags -x c++ -c bindings/c/example.c -o "$work/example.o"
c++ -std=c++17 $flags bindings/cpp/example.cpp -L"$work" -lwasmprinter -Wl,-rpath,"$work" -o "$work/example_cpp"

# case_of STATUS OUTPUT ARGUMENT..: runs an example with these arguments, and with its standard output redirected to OUTPUT. Checks that it ends
# with the status, that OUTPUT equals the file `out` (unless OUTPUT is /dev/full), and that its standard error equals the file `err`.
case_of() {
    expected=$1
    output=$2
    shift 2
    status=0
    "$work/$example" "$@" >"$output" 2>"$work/reported" || status=$?
    if [ "$status" != "$expected" ]; then
        echo "bindings: $example $* ended with status $status, not $expected" >&2
        exit 1
    fi
    if [ "$output" != /dev/full ]; then cmp "$work/out" "$output"; fi
    cmp "$work/err" "$work/reported"
}

printf '\000asm\001\000\000\000' >"$work/empty.wasm"
printf '\000asm\015\000\001\000' >"$work/component.wasm"
for example in example_c example_cpp; do
    echo '(module)' >"$work/out"
    : >"$work/err"
    case_of 0 "$work/written" "$work/empty.wasm"
    echo "example: the text can't be written" >"$work/err"
    case_of 1 /dev/full "$work/empty.wasm"
    : >"$work/out"
    echo "example: the file can't be read" >"$work/err"
    case_of 1 "$work/written" "$work/missing.wasm"
    echo 'example: components are not supported' >"$work/err"
    case_of 1 "$work/written" "$work/component.wasm"
    echo 'usage: example FILE' >"$work/err"
    case_of 2 "$work/written"
    case_of 2 "$work/written" "$work/empty.wasm" "$work/empty.wasm"
done
echo 'c, c++: both examples print and report as typed'

# colored: prints the standard input with escape sequences in place of the marks of its styles: names, literals, keywords, types, comments, none.
escape=$(printf '\033')
colored() {
    sed "s/{N}/{R}${escape}[35m/g; s/{L}/{R}${escape}[31m/g; s/{K}/{R}${escape}[1m${escape}[38;5;11m/g; s/{T}/{R}${escape}[1m${escape}[38;5;10m/g
        s/{C}/{R}${escape}[36m/g; s/{R}/${escape}[0m/g"
}

# a function with a name that is no identifier, which returns negative infinity, and a custom section: the module TYPED of events.c
printf '\000asm\001\000\000\000\001\005\001\140\000\001\175\003\002\001\000\012\014\001\012\000\002\175' >"$work/typed.wasm"
printf '\103\000\000\200\377\013\013\000\012\004name\001\003\001\000\000\000\003\001a\001' >>"$work/typed.wasm"
colored >"$work/colored" <<'END'
({K}module{R}
  ({K}type {R}{N}(;0;){R} ({K}func{R} ({K}result{R} {T}f32{R})))
  ({K}func {R}{N}$"#func0 " ({K}@name "{R}") (;0;){R} ({K}type {R}{N}0{R}) ({K}result{R} {T}f32{R})
    block ({K}result {R}{T}f32{R}) {C};; label = @1{R}
      f32.const -{L}inf {C}(;=-inf;){R}
    end
  )
  ({K}@custom {R}{L}"a"{R} (after code) {L}"\01"{R})
)
END
compile_both color "$library"
for color in color_c color_cpp; do
    "$work/$color" <"$work/typed.wasm" >"$work/written"
    cmp "$work/colored" "$work/written"
    if "$work/$color" <"$work/component.wasm" >"$work/written" 2>"$work/reported"; then exit 1; fi
    echo 'color: component' | cmp - "$work/reported"
    if [ -s "$work/written" ]; then exit 1; fi
done
echo 'c, c++: the example in colors prints as typed'

set -- --offline --quiet --workspace --manifest-path bindings/rust/Cargo.toml --target-dir "$work/rust"
WASMPRINTER_LIB=$work cargo test "$@" >"$work/log" 2>&1 || { cat "$work/log"; exit 1; }
echo "rust: $(grep -c '^test result: ok' "$work/log") groups of tests passed"
# the documentation is made without the library
DOCS_RS=1 RUSTDOCFLAGS='-D warnings' cargo doc --no-deps "$@" >"$work/log" 2>&1 || { cat "$work/log"; exit 1; }
(cd bindings/python && WASMPRINTER_SO=$work/libwasmprinter.so python3 -B -m unittest --quiet test_wasmprinter)
echo 'python: all tests passed'
