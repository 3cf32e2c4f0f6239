#!/bin/sh
# Tests the built program `wasm2text`, as tools/program.sh tests `printwasm`: starts it with the arguments of each case below, and compares its
# standard output, its standard error and its status with the texts typed here. Some cases write files, print to a pseudoterminal or to a pipe
# that its reader closes, or print by `git diff`. The crate's tests call `run` with files and writers in memory, so only these cases test `main`,
# and the files and writers of the system.
#
#   tools/wasm2text.sh [PROGRAM]
#
# The program is crates/wasm2text/out/wasm2text, which `rt ci` and `rt run` build, or that with this absolute path. The status is not 0 if a case
# differs.
set -eu
cd "$(dirname "$0")/.."
. tools/common/cases.sh
start_cases wasm2text "${1:-crates/wasm2text/out/wasm2text}"
unset NO_COLOR

# shows FILE COMMAND..: runs the command, then prints the file, or that there is none, and ends with the status of the command.
cat >shows <<'END'
file=$1
shift
status=0
"$@" || status=$?
if [ -e "./$file" ]; then
    echo "-- $file:"
    cat "./$file"
else
    echo "-- no $file"
fi
exit "$status"
END

# file_case STATUS FILE WORD..: runs the program with these arguments, and checks its status, its standard error, and in `out` its standard
# output and then the file, as `shows` prints it.
file_case() {
    expected=$1
    file=$2
    shift 2
    started "$expected" sh shows "$file" "$program" "$@"
}

# input_case STATUS FILE WORD..: runs the program with these arguments and the file as standard input, and checks the same as `case_of`.
input_case() {
    expected=$1
    file=$2
    shift 2
    # shellcheck disable=SC2016 # the inner shell expands these
    started "$expected" sh -c 'file=$1; shift; exec "$@" <"$file"' sh "$file" "$program" "$@"
}

# terminal_case STATUS COMMAND: runs a command of the shell on a pseudoterminal, and checks its status and in `out` what it writes there.
terminal_case() {
    if [ -n "$has_terminals" ]; then
        started "$1" script -qec "stty -opost; PATH=.:\$PATH; $2" /dev/null </dev/null
    fi
}

# git_case STATUS FILE: shows by git that the empty module was replaced by that in the file, and checks the same as `case_of`.
git_case() {
    if command -v git >found; then
        started "$1" sh in_git "$2"
    else
        echo "$name: a case is left out: git is missing"
    fi
}

# The modules: the empty one, the identity function, one that lacks its last byte, one whose `dylink.0` section has subsection 9, a component,
# one with an unknown section, one with a legacy `try`, one whose custom section `z` has 2097150 zeros, one with longer encodings than needed, and
# the README's example
printf '\000asm\001\000\000\000' >empty.wasm
printf '\000asm\001\000\000\000\001\006\001\140\001\177\001\177\003\002\001\000\007\005\001\001f\000\000\012\006\001\004\000\040\000\013' \
    >same.wasm
printf '\000asm\001\000\000' >cut.wasm
printf '\000asm\001\000\000\000\000\013\010dylink.0\011\000' >late.wasm
printf '\000asm\015\000\001\000' >component.wasm
printf '\000asm\001\000\000\000\016\000' >unknown.wasm
printf '\000asm\001\000\000\000\001\004\001\140\000\000\003\002\001\000\012\010\001\006\000\006\100\031\013\013' >legacy.wasm
printf '\000asm\001\000\000\000\000\200\200\200\001\001z' | cat - /dev/zero | head -c 2097165 >big.wasm
printf '\000asm\001\000\000\000\001\204\200\200\200\000\001\140\000\000\002\011\001\201\200\000m\001g\000\000\003\002\001\000\006\001\000\012\013\001\011\000\101\200\200\200\200\000\032\013' \
    >padded.wasm
printf '\0asm\1\0\0\0\1\6\1`\1\177\1\177\2\17\1\3env\6memory\2\0\1\3\2\1\0\7\10\1\4find\0\0\12\34\1\32\0\2@\3@ \0(\2\0\15\1 \0(\2\4"\0\15\0\13\13 \0\13\0+\4name\1\7\1\0\4find\2\11\1\0\1\0\4item\3\20\1\0\2\0\5found\1\4next' \
    >find.wasm

# The texts
echo '(module)' >empty.wat
cat >same.wat <<'END'
(module
  (type (;0;) (func (param i32) (result i32)))
  (export "f" (func 0))
  (func (;0;) (type 0) (param i32) (result i32)
    local.get 0
  )
)
END
cat >offsets.wat <<'END'
(module
(;@b     ;)  (type (;0;) (func (param i32) (result i32)))
(;@17    ;)  (export "f" (func 0))
(;@1f    ;)  (func (;0;) (type 0) (param i32) (result i32)
(;@20    ;)    local.get 0
(;@22    ;)  )
(;@23    ;))
END
colored >colored.wat <<'END'
({K}module{R}
  ({K}type {R}{N}(;0;){R} ({K}func{R} ({K}param{R} {T}i32{R}) ({K}result{R} {T}i32{R})))
  ({K}export {R}{L}"f"{R} ({K}func {R}{N}0{R}))
  ({K}func {R}{N}(;0;){R} ({K}type {R}{N}0{R}) ({K}param{R} {T}i32{R}) ({K}result{R} {T}i32{R})
    local.get {N}0{R}
  )
)
END
{
    printf '(module\n  (@custom "z" (before first) "'
    yes '\00' | head -n 2097150 | tr -d '\n'
    printf '")\n)\n'
} >big.wat

# Files and standard input
: >err
cp same.wat out
case_of 0 same.wasm
as_user 0 same.wasm
input_case 0 same.wasm
input_case 0 same.wasm -
input_case 0 same.wasm -- -
cat empty.wat same.wat empty.wat >out
case_of 0 empty.wasm same.wasm empty.wasm
input_case 0 same.wasm empty.wasm - empty.wasm
cp same.wasm ./--help
cp same.wasm 'a '
cp empty.wasm a
cat same.wat same.wat empty.wat >out
case_of 0 'a ' -- --help a

# more than 64 KiB of standard input, from a file and from a pipe, and a file of more than 1 MiB
cp big.wat out
case_of 0 big.wasm
input_case 0 big.wasm
# shellcheck disable=SC2016 # the inner shell expands these
started 0 sh -c 'cat big.wasm | "$0"' "$program"
cat big.wat same.wat big.wat >out
input_case 0 big.wasm big.wasm same.wasm -

# a pipe is read once: a second read would wait for a second writer
cp same.wat out
mkfifo pipe
timeout 60 sh -c 'cat same.wasm >pipe' &
case_of 0 pipe

# many words
yes '(module)' | head -n 300 >out
# shellcheck disable=SC2046 # each line is a word
case_of 0 $(yes empty.wasm | head -n 300)

# Options
cp offsets.wat out
case_of 0 -p same.wasm
case_of 0 same.wasm --print-offsets
# shellcheck disable=SC2046 # each line is a word
case_of 0 $(yes -- -p | head -n 300) same.wasm

cat >out <<'END'
(module
  (type (;0;) (func (param i32) (result i32)))
  (export "f" (func 0))
  (func (;0;) (type 0) (param i32) (result i32) ...)
)
END
case_of 0 --skeleton same.wasm

cat >out <<'END'
(module
  (type $#type0 (;0;) (func (param i32) (result i32)))
  (export "f" (func $#func0))
  (func $#func0 (;0;) (type $#type0) (param $#local0 i32) (result i32)
    local.get $#local0
  )
)
END
case_of 0 --name-unnamed same.wasm

cat >out <<'END'
(module
  (type (;0;) (func (param i32) (result i32)))
  (export "f" (func 0))
  (func (;0;) (type 0) (param i32) (result i32)
    (local.get 0)
  )
)
END
case_of 0 -f same.wasm
case_of 0 --fold-instructions same.wasm
echo "wasm2text: legacy.wasm: legacy exception operator at byte 0x17 can't be folded" >err
case_of 1 -f legacy.wasm same.wasm
: >err

cat >out <<'END'
(module
   (type (;0;) (func (param i32) (result i32)))
   (export "f" (func 0))
   (func (;0;) (type 0) (param i32) (result i32)
      local.get 0
   )
)
END
case_of 0 --indent 3 same.wasm
case_of 0 --indent=3 same.wasm
case_of 0 --indent +3 same.wasm
case_of 0 --indent=0 same.wasm --indent 03

sed 's/^ *//' same.wat >out
case_of 0 --indent 0 same.wasm

# each space of the indent is a space of each level
sed "s/  /$(printf '%100s' '')/g" same.wat >out
case_of 0 --indent 100 same.wasm

cp colored.wat out
case_of 0 --color always same.wasm
case_of 0 --color=always same.wasm
started 0 env NO_COLOR=1 "$program" --color=always same.wasm
cp same.wat out
case_of 0 --color never same.wasm
case_of 0 --color auto same.wasm
case_of 0 --color=always same.wasm --color=never
started 0 env NO_COLOR= "$program" same.wasm

colored >out <<'END'
({K}module{R}
{C}(;@b     ;){R} ({K}type {R}{N}$#type0 (;0;){R} ({K}func{R} ({K}param{R} {T}i32{R}) ({K}result{R} {T}i32{R})))
{C}(;@17    ;){R} ({K}export {R}{L}"f"{R} ({K}func {R}{N}$#func0{R}))
{C}(;@1f    ;){R} ({K}func {R}{N}$#func0 (;0;){R} ({K}type {R}{N}$#type0{R}) ({K}param{R} $#local0 {T}i32{R}) ({K}result{R} {T}i32{R}) ...)
{C}(;@23    ;){R})
END
case_of 0 -p --skeleton --name-unnamed -f --indent 1 --color always same.wasm
case_of 0 same.wasm --color=always --indent=1 --fold-instructions --name-unnamed --skeleton --print-offsets

# Excerpts, without colors
cat >out <<'END'
   5   (func $find (;0;) (type 0) (param $item i32) (result i32)
   9         i32.load
  10         br_if $found
  11         local.get $item
> 12         i32.load offset=4
  13         local.tee $item
  14         br_if $next
  15       end
END
case_of 0 --at 0x41 find.wasm
case_of 0 find.wasm --at=67
case_of 0 --color=always --at 0x41 find.wasm
input_case 0 find.wasm --at 0x42
case_of 0 --code-offset 0x10 find.wasm
case_of 0 --at 0 find.wasm --code-offset=16
cat >out <<'END'
  3   (export "f" (func 0))
  4   (func (;0;) (type 0) (param i32) (result i32)
  5     local.get 0
> 6   )
  7 )
END
echo 'wasm2text: empty.wasm: byte 0x22 is not in the module, which has 0x8 bytes' >err
case_of 1 --at 34 empty.wasm same.wasm
echo 'wasm2text: empty.wasm: module has no code section' >err
case_of 1 --code-offset 5 empty.wasm same.wasm
: >out
echo 'wasm2text: same.wasm: byte 0xffffffffffffffff is not in the module, which has 0x23 bytes' >err
case_of 1 --code-offset 0xffffffffffffffff same.wasm
: >err

# One function, without colors
cat >out <<'END'
  (func (;0;) (type 0) (param i32) (result i32)
    local.get 0
  )
END
case_of 0 --func 0 same.wasm
case_of 0 --at=0 --color=always same.wasm --func=0x0
cat >out <<'END'
  (func $find (;0;) (type 0) (param $item i32) (result i32) ...)
END
# shellcheck disable=SC2016 # the argument starts with a dollar sign
case_of 0 --skeleton --func '$find' find.wasm
echo 'wasm2text: same.wasm: no such function' >err
# shellcheck disable=SC2016 # the argument starts with a dollar sign
case_of 1 --skeleton --func='$find' same.wasm find.wasm

# A name that is escaped in the text, one of 70 characters, and one in a name section that is cut off, so that it does not count
function='\000asm\001\000\000\000\001\004\001\140\000\000\003\002\001\000\012\004\001\002\000\013'
seventy=$(printf '%070d' 0 | tr 0 n)
printf "$function"'\000\016\004name\001\007\001\000\004a"\303\251' >escaped.wasm
printf "$function"'\000\120\004name\001\111\001\000\106'"$seventy" >long.wasm
printf "$function"'\000\015\004name\001\007\001\000\004a"\303' >short.wasm
# shellcheck disable=SC2028 # the text has a backslash
echo '  (func $"a\u{22}\u{e9}" (;0;) (type 0))' >out
echo 'wasm2text: short.wasm: no such function' >err
# shellcheck disable=SC2016 # the argument starts with a dollar sign
case_of 1 --func '$a"é' escaped.wasm short.wasm
: >err
echo "  (func \$$seventy (;0;) (type 0))" >out
case_of 0 --func "\$$seventy" long.wasm

# What no text shows. The module with subsection 9 is decoded, but not printed.
cat >padded.lines <<'END'
0x9: size of the type section, extra bytes: 4
0x15: entry of the import section, extra bytes: 2
0x21: empty global section, extra bytes: 3
0x29: instruction, extra bytes: 4
END
cp padded.lines out
case_of 0 --hidden padded.wasm
case_of 0 --at 0 -p -f --color=always padded.wasm --hidden
input_case 0 padded.wasm --hidden
echo 'wasm2text: cut.wasm: malformed module at byte 0x0' >err
{ echo '0x13: data of a custom section, extra bytes: 2' && cat padded.lines; } >out
case_of 1 --hidden cut.wasm late.wasm padded.wasm
: >out
: >err
case_of 0 --hidden same.wasm find.wasm
echo '  (import "m" "g" (func (;0;) (type 0)))' >out
case_of 0 --hidden --func 0 padded.wasm

# Output files. The first line of `out` starts what the file holds.
{ echo '-- new.wat:' && cat same.wat; } >out
file_case 0 new.wat -o new.wat same.wasm
rm new.wat
file_case 0 new.wat same.wasm --output=new.wat
# an older and longer text is replaced
cp big.wat new.wat
file_case 0 new.wat --output new.wat same.wasm
file_case 0 new.wat -o other.wat same.wasm -o new.wat
echo '-- no other.wat' >out
file_case 0 other.wat -o other.wat same.wasm -o new.wat

cat >out <<'END'
-- new.wat:
  (func (;0;) (type 0) (param i32) (result i32)
    local.get 0
  )
END
file_case 0 new.wat -o new.wat --func 0 same.wasm
cat >out <<'END'
-- new.wat:
> 1 (module)
END
file_case 0 new.wat -o new.wat --at 5 empty.wasm
{ echo '-- new.wat:' && cat padded.lines; } >out
file_case 0 new.wat -o new.wat --hidden padded.wasm
echo '-- no none.wat' >out
file_case 0 none.wat -o none.wat --hidden same.wasm

{ echo '-- new.wat:' && cat empty.wat same.wat; } >out
file_case 0 new.wat -o new.wat empty.wasm same.wasm
{ echo '-- new.wat:' && cat big.wat; } >out
file_case 0 new.wat -o new.wat big.wasm
{ echo '-- new.wat:' && cat colored.wat; } >out
file_case 0 new.wat -o new.wat --color always same.wasm

# the names `-` and `--` after an option are names of files
{ echo '-- -:' && cat same.wat; } >out
file_case 0 - -o - same.wasm
{ echo '-- --:' && cat offsets.wat; } >out
file_case 0 -- -o -- -p same.wasm

# the output file is the input file
cp same.wasm both
{ echo '-- both:' && cat same.wat; } >out
file_case 0 both -o both both
cp same.wasm both
{ echo '-- both:' && cat empty.wat; } >out
echo 'wasm2text: both: malformed module at byte 0x0' >err
file_case 1 both -o both empty.wasm both

# no file is created, and an older file stays as it is, if there is no text
echo '-- no none.wat' >out
echo 'wasm2text: cut.wasm: malformed module at byte 0x0' >err
file_case 1 none.wat -o none.wat cut.wasm
cp empty.wat old.wat
{ echo '-- old.wat:' && cat empty.wat; } >out
file_case 1 old.wat -o old.wat cut.wasm
echo 'wasm2text: missing.wasm: no such file or directory' >err
file_case 1 old.wat -o old.wat missing.wasm
{ echo '-- new.wat:' && cat same.wat; } >out
file_case 1 new.wat -o new.wat missing.wasm same.wasm
{ echo '-- new.wat:' && printf '(module'; } >out
echo 'wasm2text: late.wasm: unknown dylink.0 subsection 9' >err
file_case 1 new.wat -o new.wat late.wasm

# the file can't be created
mkdir folder
: >locked.wat
chmod 0 locked.wat
: >out
echo 'wasm2text: missing/new.wat: no such file or directory' >err
case_of 1 -o missing/new.wat same.wasm empty.wasm
echo 'wasm2text: folder: is a directory' >err
case_of 1 -o folder same.wasm
echo 'wasm2text: locked.wat: permission denied' >err
as_user 1 -o locked.wat same.wasm

# Files that are not read or not printed. The others are printed.
cat empty.wat same.wat >out
cat >err <<'END'
wasm2text: missing.wasm: no such file or directory
wasm2text: folder: is a directory
wasm2text: same.wasm/: not a directory
wasm2text: : no such file or directory
wasm2text: loop: too many symbolic links
wasm2text: /proc/self/mem: unexpected system error
END
ln -s loop loop
case_of 1 missing.wasm empty.wasm folder same.wasm/ '' loop same.wasm /proc/self/mem
: >out
long=$(yes a | head -n 300 | tr -d '\n')
echo "wasm2text: $long: file name too long" >err
case_of 1 "$long"
cp same.wasm locked.wasm
chmod 0 locked.wasm
echo 'wasm2text: locked.wasm: permission denied' >err
as_user 1 locked.wasm
echo 'wasm2text: -: is a directory' >err
input_case 1 folder

cat empty.wat same.wat >out
cat >err <<'END'
wasm2text: cut.wasm: malformed module at byte 0x0
wasm2text: component.wasm: components are not supported
wasm2text: unknown.wasm: malformed module at byte 0x8
wasm2text: big.wat: malformed module at byte 0x0
END
case_of 1 cut.wasm empty.wasm component.wasm unknown.wasm same.wasm big.wat
# standard input has no bytes after it was read once
cp same.wat out
echo 'wasm2text: -: malformed module at byte 0x0' >err
input_case 1 same.wasm - -

# a prefix of a text, and the next text after it; with colors no prefix is written
{ printf '(module' && cat empty.wat; } >out
echo 'wasm2text: late.wasm: unknown dylink.0 subsection 9' >err
case_of 1 late.wasm empty.wasm
cp colored.wat out
case_of 1 --color=always late.wasm same.wasm

# Names in messages: a control character and a backslash are escaped
: >out
escaped=$(printf 'a\nb\033[31m\t\177\302\233\\é')
cat >err <<'END'
wasm2text: a\nb\u{1b}[31m\t\u{7f}\u{9b}\\é: no such file or directory
END
case_of 1 "$escaped"
cat >err <<'END'
wasm2text: unknown option '-a\nb\u{1b}[31m\t\u{7f}\u{9b}\\é'. Try 'wasm2text --help'.
END
case_of 2 "-$escaped"
cat >err <<'END'
wasm2text: option '--indent' can't have the value 'a\nb\u{1b}[31m\t\u{7f}\u{9b}\\é'. Try 'wasm2text --help'.
END
case_of 2 --indent "$escaped"
cat >err <<'END'
wasm2text: missing/a\nb\u{1b}[31m\t\u{7f}\u{9b}\\é: no such file or directory
END
case_of 1 -o "missing/$escaped" same.wasm

# Wrong command lines. Nothing is printed, no file is read or created.
echo "wasm2text: unknown option '--x'. Try 'wasm2text --help'." >err
case_of 2 same.wasm --x
case_of 2 same.wasm --x --y missing.wasm
case_of 2 --help --x
echo "wasm2text: unknown option '-pf'. Try 'wasm2text --help'." >err
case_of 2 -pf same.wasm
echo "wasm2text: unknown option '--skeleton=yes'. Try 'wasm2text --help'." >err
case_of 2 --skeleton=yes same.wasm
echo "wasm2text: unknown option '--hidden=yes'. Try 'wasm2text --help'." >err
case_of 2 --hidden=yes same.wasm
echo "wasm2text: unknown option '-o=new.wat'. Try 'wasm2text --help'." >err
case_of 2 -o=new.wat same.wasm
echo "wasm2text: unknown option '--print'. Try 'wasm2text --help'." >err
case_of 2 --print same.wasm
echo "wasm2text: option '-o' needs a value. Try 'wasm2text --help'." >err
case_of 2 same.wasm -o
echo "wasm2text: option '--output' needs a value. Try 'wasm2text --help'." >err
case_of 2 same.wasm --output
echo "wasm2text: option '--indent' needs a value. Try 'wasm2text --help'." >err
case_of 2 --indent
echo "wasm2text: option '--color' needs a value. Try 'wasm2text --help'." >err
case_of 2 -o new.wat --color
echo "wasm2text: option '--indent' can't have the value 'two'. Try 'wasm2text --help'." >err
case_of 2 --indent two same.wasm
echo "wasm2text: option '--indent' can't have the value '4294967296'. Try 'wasm2text --help'." >err
case_of 2 --indent=4294967296 same.wasm
echo "wasm2text: option '--indent' can't have the value ''. Try 'wasm2text --help'." >err
case_of 2 same.wasm --indent=
echo "wasm2text: option '--indent' can't have the value '-1'. Try 'wasm2text --help'." >err
case_of 2 --indent -1 same.wasm
echo "wasm2text: option '--color' can't have the value 'sometimes'. Try 'wasm2text --help'." >err
case_of 2 --color sometimes same.wasm
long=$(yes a | head -n 100000 | tr -d '\n')
echo "wasm2text: unknown option '-$long'. Try 'wasm2text --help'." >err
case_of 2 "-$long"
echo '-- no none.wat' >out
echo "wasm2text: unknown option '--x'. Try 'wasm2text --help'." >err
file_case 2 none.wat -o none.wat same.wasm --x

: >out
echo 'wasm2text: an argument is not UTF-8' >err
case_of 1 "$(printf '\377')"
case_of 1 same.wasm "$(printf '\377')"
case_of 1 --help "$(printf 'a\377')"

# Out of memory, with 400 MB of address space: the indent is made before a file is read
echo 'wasm2text: out of memory' >err
# shellcheck disable=SC2016 # the inner shell expands these
limited='ulimit -v 400000; exec "$0" "$@"'
started 1 sh -c "$limited" "$program" --indent 4294967295 same.wasm

# The help and the version
: >err
echo 'wasm2text 0.263.0-r1' >out
case_of 0 --version
case_of 0 same.wasm -V --indent 4
cat >out <<'END'
Usage: wasm2text [OPTIONS] [FILE...]

Prints WebAssembly modules as text, one after the other.
FILE may be -, which is standard input, as is no FILE. Words after -- are files.

Options:
  -p, --print-offsets      Start each line with its byte offset in the module
      --skeleton           Leave out bodies, element items and data bytes
      --name-unnamed       Synthesize identifiers for items without a name
  -f, --fold-instructions  Print each instruction in parentheses
      --indent N           Indent each level by N spaces (default: 2)
      --color WHEN         Print in colors: auto, always or never (default: auto)
      --at OFFSET          Print only the lines around the byte at OFFSET
      --code-offset OFFSET
                           As --at, with OFFSET counted from the code section
      --func FUNCTION      Print only the text of one function
      --hidden             Print only what no text shows, as padded numbers
  -o, --output FILE        Write to FILE instead of standard output
  -h, --help               Print this help
  -V, --version            Print the version

With --color auto, the text is in colors if standard output is a terminal,
NO_COLOR is unset or empty, and there is no --output.

With --at, the line that shows the byte is marked by >. Up to three lines before
and after it are printed, and the header of its function, with their numbers in
the whole text, without colors. OFFSET is a decimal number, or a hexadecimal one
after 0x. It counts from the start of each module or, with --code-offset, of the
contents of its code section, as in DWARF.

With --func, the lines of one function are printed as they are in the whole
text, without colors. FUNCTION is its index, as OFFSET is written, and imported
functions are counted; or $ and the rest of its identifier, as '$find'.

With --hidden, a line is printed for each part of a module that no text shows,
instead of the text: its byte offset, its name, and the number of its bytes that
are not needed. Such parts are numbers and forms that are longer than needed,
empty sections and lists, and names and branch hints that are not used.

Exit status:
  0  no file failed; the reader of the text may have closed the pipe
  1  a file, the output, an allocation or the arguments failed; if only files
     failed, the others are printed; a part of a text may have been written
  2  the command line is wrong; nothing was printed
END
cp out help
case_of 0 --help
case_of 0 -V missing.wasm -h
started 0 sh -c "$limited" "$program" --indent 4294967295 --help
echo '-- no none.wat' >>out
file_case 0 none.wat --help -o none.wat
{ cat help && echo '-- old.wat:' && cat empty.wat; } >out
file_case 0 old.wat --help -o old.wat same.wasm

# Colors on a pseudoterminal, by `script` of util-linux
has_terminals=
if script --version 2>&1 | grep -q util-linux; then
    has_terminals=yes
else
    echo "wasm2text: cases on a terminal are left out: util-linux with \`script\` is missing"
fi
export SHELL=/bin/sh
cp colored.wat out
terminal_case 0 'wasm2text same.wasm'
terminal_case 0 'wasm2text --color=auto same.wasm 2>/dev/null'
terminal_case 0 'NO_COLOR= wasm2text - <same.wasm'
terminal_case 0 'NO_COLOR=1 wasm2text --color=always same.wasm'
cp same.wat out
terminal_case 0 'NO_COLOR=1 wasm2text same.wasm'
terminal_case 0 'NO_COLOR=0 wasm2text --color auto same.wasm'
# shellcheck disable=SC2016 # the shell on the terminal expands this
terminal_case 0 'NO_COLOR=$(printf "\377") wasm2text same.wasm'
terminal_case 0 'wasm2text --color=never same.wasm'
terminal_case 0 'wasm2text same.wasm >redirected; cat redirected'
terminal_case 0 'wasm2text same.wasm | cat'
terminal_case 0 'wasm2text -o new.wat same.wasm; cat new.wat'
cp help out
terminal_case 0 'wasm2text --help'
echo 'wasm2text: cut.wasm: malformed module at byte 0x0' >out
terminal_case 1 'wasm2text cut.wasm'

# A write fails. No other file is printed.
: >out
echo "wasm2text: same.wasm: can't write the text: no space left on device" >err
# shellcheck disable=SC2016 # the inner shell expands these
full='exec "$0" "$@" >/dev/full'
started 1 sh -c "$full" "$program" same.wasm
started 1 sh -c "$full" "$program" same.wasm empty.wasm missing.wasm
case_of 1 -o /dev/full same.wasm missing.wasm
echo "wasm2text: standard output: can't write the text: no space left on device" >err
started 1 sh -c "$full" "$program" --help
started 1 sh -c "$full" "$program" --version
cat >err <<'END'
wasm2text: missing.wasm: no such file or directory
wasm2text: big.wasm: can't write the text: no space left on device
END
started 1 sh -c "$full" "$program" missing.wasm big.wasm
echo "wasm2text: big.wasm: can't write the text: file too large" >err
# shellcheck disable=SC2016 # the inner shell expands these
started 1 sh -c 'trap "" XFSZ; ulimit -f 64; exec "$0" "$@"' "$program" -o new.wat big.wasm

# The reader of a pipe closes it after a byte. The program ignores the signal SIGPIPE, whatever it inherits, and ends.
: >err
# shellcheck disable=SC2016 # the inner shell expands these
closed='{ status=0; "$@" || status=$?; echo "$status" >status; } | head -c 1 >first; exit "$(cat status)"'
started 0 env --default-signal=PIPE sh -c "$closed" sh "$program" big.wasm
started 0 env --ignore-signal=PIPE sh -c "$closed" sh "$program" big.wasm
started 0 env --ignore-signal=PIPE sh -c "$closed" sh "$program" big.wasm missing.wasm
echo 'wasm2text: missing.wasm: no such file or directory' >err
started 1 env --ignore-signal=PIPE sh -c "$closed" sh "$program" missing.wasm big.wasm

# Differences by git
cat >in_git <<'END'
unset $(git rev-parse --local-env-vars)
export LC_ALL=C GIT_CONFIG_GLOBAL=/dev/null GIT_CONFIG_NOSYSTEM=1
PATH=$PWD:$PATH
git init -q repository
cp empty.wasm repository/module.wasm
cd repository
echo '*.wasm diff=wasm' >>.gitattributes
git config diff.wasm.textconv wasm2text
[ -z "${FILTERED:-}" ] ||
git config diff.wasm.textconv "f() { wasm2text \"\$1\" | sed 's/ (;[0-9]*;)//'; }; f"
git add .
cp "../$1" module.wasm
git diff --no-color >../difference || exit
grep -v '^index ' ../difference
END
cat >out <<'END'
diff --git a/module.wasm b/module.wasm
--- a/module.wasm
+++ b/module.wasm
@@ -1 +1,7 @@
-(module)
+(module
+  (type (;0;) (func (param i32) (result i32)))
+  (export "f" (func 0))
+  (func (;0;) (type 0) (param i32) (result i32)
+    local.get 0
+  )
+)
END
: >err
git_case 0 same.wasm
rm -rf repository
sed 's/ (;0;)//' out >without_comments
mv without_comments out
export FILTERED=yes
git_case 0 same.wasm
unset FILTERED
rm -rf repository
: >out
cat >err <<'END'
wasm2text: module.wasm: malformed module at byte 0x0
fatal: unable to read files to diff
END
git_case 128 cut.wasm

end_cases
