#!/bin/sh
# Compiles and runs the examples of an unpacked release archive, for tools/embed.sh, which describes the output and the status.
#
# tools/embed/run.sh RELEASE FOLDER: reads the archive's folder RELEASE, and writes to the empty folder FOLDER. The archive is ~/.local of the
# commands, as if it were installed there.
set -eu
tools=$(cd "$(dirname "$0")" && pwd)
release=$1
cd "$2"
mkdir -p home examples
ln -s "$release" home/.local
ln -s "$release/bindings" bindings
prefix=$HOME/.local
export PKG_CONFIG_PATH="$prefix/lib/pkgconfig" PYTHONDONTWRITEBYTECODE=1
languages=''
left_out=0

fail() {
    echo "embed: $*" >&2
    exit 1
}

# quietly WORD..: runs a command, and prints its output only if it fails.
quietly() {
    "$@" >log 2>&1 || { cat log >&2; fail "$what: failed: $*"; }
}

# has TOOL..: reports whether each tool runs. If one doesn't, prints that `what` is not run.
has() {
    for tool; do
        "$tool" --version >log 2>&1 && continue
        not_run "there is no $tool"
        return 1
    done
}

# not_run REASON
not_run() {
    echo "embed: $what: not run, since $1"
    left_out=$((left_out + 1))
}

# passed LANGUAGE: counts the language.
passed() {
    echo "embed: $what: as typed"
    case ", $languages, " in
    *", $1, "*) ;;
    *) languages=${languages:+$languages, }$1 ;;
    esac
}

# expect STATUS OUT ERR COMMAND..: checks the status of a command, and its output and its errors, which are typed with escapes as `\n`.
expect() {
    expected=$1
    printf '%b' "$2" >out
    printf '%b' "$3" >err
    shift 3
    status=0
    "$@" >written 2>reported || status=$?
    [ "$status" = "$expected" ] || { cat written reported >&2; fail "$what: status $status, expected $expected: $*"; }
    diff out written >&2 || fail "$what: wrong output (>), expected (<): $*"
    diff err reported >&2 || fail "$what: wrong errors (>), expected (<): $*"
}

# expect_printer NAME COMMAND: checks that a program prints a module, and refuses a component with its name in the message.
expect_printer() {
    expect 0 '(module\n  (type (;0;) (func))\n)\n' '' "$2" example.wasm
    expect 1 '' "$1: components are not supported\n" "$2" component.wasm
}

# reading FILE COMMAND: runs a command with the file as its standard input.
reading() {
    "$2" <"$1"
}

keyword_style='\033[0m\033[1m\033[38;5;11m'
name_style='\033[0m\033[35m'
no_style='\033[0m'

# expect_example PATH COMMAND: checks the program of a file of bindings/c or bindings/cpp.
expect_example() {
    case $1 in
    */example.*) expect_printer example "$2" ;;
    */preview.c) expect 0 '(module)\n(9 of 9 bytes)\n' '' "$2" ;;
    */color.c)
        expect 0 "(${keyword_style}module$no_style\n  (${keyword_style}type $no_style$name_style(;0;)$no_style (${keyword_style}func$no_style))\n)\n" '' reading example.wasm "$2"
        expect 1 '' 'color: component\n' reading component.wasm "$2"
        ;;
    *) fail "no output is typed for $1" ;;
    esac
}

# by_pkg_config COMPILER FILE..: compiles and runs each file with the flags of pkg-config.
by_pkg_config() {
    compiler=$1
    shift
    for file; do
        # shellcheck disable=SC2046 # each word is a flag
        quietly "$compiler" "$file" $(pkg-config --cflags --libs wasmprinter) "-Wl,-rpath,$prefix/lib" -o by_pkg_config
        expect_example "$file" ./by_pkg_config
    done
}

# by_cmake NAME SUFFIX FILE..: compiles and runs each file by the block for CMake, with the shared and with the static library. NAME is CMake's name
# of the language.
by_cmake() {
    name=$1
    suffix=$2
    shift 2
    for file; do
        rm -rf cmake
        mkdir cmake
        cp "$file" "cmake/caller.$suffix"
        {
            printf 'cmake_minimum_required(VERSION 3.10)\nproject(caller %s)\nset(CMAKE_CXX_STANDARD 17)\n' "$name"
            sed "s/caller\.c/caller.$suffix/" examples/CMakeLists.txt
            sed "s/caller\.c/caller.$suffix/; s/(caller /(caller_static /; s/wasmprinter::wasmprinter/wasmprinter::static/; /^find_package/d" \
                examples/CMakeLists.txt
        } >cmake/CMakeLists.txt
        quietly cmake -S cmake -B cmake/made "-DCMAKE_PREFIX_PATH=$prefix"
        quietly cmake --build cmake/made
        expect_example "$file" cmake/made/caller
        expect_example "$file" cmake/made/caller_static
    done
}

# The program and the dependency are typed in bindings/rust/README.md and in bindings/README.md.
by_cargo() {
    mkdir -p rust/src
    ln -s "$release/bindings" rust/bindings
    cp examples/main.rs rust/src/main.rs
    printf '[package]\nname = "example"\nversion = "0.0.0"\nedition = "2021"\n\n[dependencies]\n' >rust/Cargo.toml
    # shellcheck disable=SC2016 # the backquotes are those of the page
    sed -n 's/.*`\(wasmprinter-proved = {[^`]*}\)`.*/\1/p' bindings/README.md >>rust/Cargo.toml
    quietly cargo build --offline --manifest-path rust/Cargo.toml --target-dir rust/target
    expect 0 '' '' rust/target/debug/example
}

what='the program'
printf '\000asm\001\000\000\000\001\004\001\140\000\000' >example.wasm
printf '\000asm\015\000\001\000' >component.wasm
expect_printer error "$release/bin/printwasm"
echo 'embed: the program: as typed'

what='the examples of bindings/README.md'
python3 "$tools/examples.py" "$release" examples || fail 'the examples are not found. This needs python3.'
# shellcheck disable=SC2046 # each word is a path
set -- $(cat examples/c)

what='C by the commands of the page'
if has cc pkg-config; then
    quietly sh -eu examples/commands.sh
    expect_printer example ./example
    by_pkg_config cc "$@"
    passed C
fi
what='C by CMake'
if has cc make cmake; then
    by_cmake C c "$@"
    passed C
fi

# shellcheck disable=SC2046
set -- $(cat examples/cpp)
what='C++ by pkg-config'
if has c++ pkg-config; then
    by_pkg_config 'c++' "$@"
    passed C++
fi
what='C++ by CMake'
if has c++ make cmake; then
    by_cmake CXX cpp "$@"
    passed C++
fi

what='Rust by cargo'
command -v pkg-config >log || export WASMPRINTER_LIB="$release/lib"
if has cargo cc; then
    by_cargo
    passed Rust
fi

export WASMPRINTER_SO="$prefix/lib/libwasmprinter.so.1"
what='Python by PYTHONPATH'
expect 0 '' '' env PYTHONPATH=bindings/python python3 -m doctest examples/python.txt
passed Python
what='Python by pip'
if python3 -m venv venv >log 2>&1 && venv/bin/pip --version >log 2>&1; then
    quietly venv/bin/pip install --no-index --no-deps "$release"/bindings/python/*.whl
    expect 0 '' '' venv/bin/python -m doctest examples/python.txt
    passed Python
else
    not_run 'python3 makes no environment with pip (python3 -m venv)'
fi

echo "embed: $(echo "$languages" | awk -F ', ' '{ print NF }') of 4 languages ran: $languages; $left_out parts were not run"
[ "$left_out" = 0 ] || exit 3
