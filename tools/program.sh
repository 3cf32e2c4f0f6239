#!/bin/sh
# Tests `main`: starts the built program with the arguments of each case below, and compares its standard output, its standard error and its
# status with the texts typed here. Some cases pass a file that can't be read, or one that can be read only once. `rt ci` itself starts the
# program only without arguments, and the crate's tests call `run` and `start`. The program is crates/printwasm/out/printwasm, which `rt ci`
# and `rt run` build. The status is not 0 if a case differs.
set -eu
cd "$(dirname "$0")/.."
tools=$PWD/tools
. tools/common/cases.sh
start_cases printwasm "${1:-crates/printwasm/out/printwasm}"

# the identity function, with an export
printf '\000asm\001\000\000\000\001\006\001\140\001\177\001\177\003\002\001\000\007\005\001\001f\000\000\012\006\001\004\000\040\000\013' \
    >same.wasm

: >out
echo 'usage: printwasm [--offsets] [--skeleton] [--name-unnamed] [--fold] [--color] FILE' >err
case_of 2
case_of 2 --offsets --skeleton --name-unnamed --fold --color
case_of 2 --offsets --skeleton --name-unnamed --fold --color same.wasm same.wasm
case_of 2 --offsets --skeleton --name-unnamed --fold --colors same.wasm

echo "error: the file can't be read" >err
case_of 1 --offsets --skeleton --name-unnamed --fold --color missing.wasm

# a file without permissions, and one that fails after all of its bytes were read
cp same.wasm locked.wasm
chmod 0 locked.wasm
as_user 1 locked.wasm
started 1 python3 -B "$tools/failing_file.py" "$program" same.wasm

echo "error: an argument is not UTF-8" >err
case_of 1 "$(printf '\377')"
case_of 1 same.wasm "$(printf '\377')"

: >err
cat >out <<'END'
(module
  (type (;0;) (func (param i32) (result i32)))
  (export "f" (func 0))
  (func (;0;) (type 0) (param i32) (result i32)
    local.get 0
  )
)
END
case_of 0 same.wasm
as_user 0 same.wasm

# a pipe is read once: a second read would wait for a second writer
mkfifo pipe
timeout 60 sh -c 'cat same.wasm >pipe' &
case_of 0 pipe

cat >out <<'END'
(module
(;@b     ;)  (type (;0;) (func (param i32) (result i32)))
(;@17    ;)  (export "f" (func 0))
(;@1f    ;)  (func (;0;) (type 0) (param i32) (result i32)
(;@20    ;)    local.get 0
(;@22    ;)  )
(;@23    ;))
END
case_of 0 --offsets same.wasm
repeated=$(yes -- --offsets | head -n 100)
# shellcheck disable=SC2086 # each line is a word
case_of 0 $repeated same.wasm
# shellcheck disable=SC2086
case_of 0 same.wasm $repeated

cat >out <<'END'
(module
  (type (;0;) (func (param i32) (result i32)))
  (export "f" (func 0))
  (func (;0;) (type 0) (param i32) (result i32) ...)
)
END
case_of 0 --skeleton same.wasm

cat >out <<'END'
(module
  (type $#type0 (;0;) (func (param i32) (result i32)))
  (export "f" (func $#func0))
  (func $#func0 (;0;) (type $#type0) (param $#local0 i32) (result i32)
    local.get $#local0
  )
)
END
case_of 0 --name-unnamed same.wasm

cat >out <<'END'
(module
  (type (;0;) (func (param i32) (result i32)))
  (export "f" (func 0))
  (func (;0;) (type 0) (param i32) (result i32)
    (local.get 0)
  )
)
END
case_of 0 --fold same.wasm

colored >out <<'END'
({K}module{R}
  ({K}type {R}{N}(;0;){R} ({K}func{R} ({K}param{R} {T}i32{R}) ({K}result{R} {T}i32{R})))
  ({K}export {R}{L}"f"{R} ({K}func {R}{N}0{R}))
  ({K}func {R}{N}(;0;){R} ({K}type {R}{N}0{R}) ({K}param{R} {T}i32{R}) ({K}result{R} {T}i32{R})
    local.get {N}0{R}
  )
)
END
case_of 0 --color same.wasm

colored >out <<'END'
({K}module{R}
{C}(;@b     ;){R}  ({K}type {R}{N}$#type0 (;0;){R} ({K}func{R} ({K}param{R} {T}i32{R}) ({K}result{R} {T}i32{R})))
{C}(;@17    ;){R}  ({K}export {R}{L}"f"{R} ({K}func {R}{N}$#func0{R}))
{C}(;@1f    ;){R}  ({K}func {R}{N}$#func0 (;0;){R} ({K}type {R}{N}$#type0{R}) ({K}param{R} $#local0 {T}i32{R}) ({K}result{R} {T}i32{R}) ...)
{C}(;@23    ;){R})
END
case_of 0 --offsets --skeleton --name-unnamed --fold --color same.wasm
case_of 0 same.wasm --color --fold --name-unnamed --skeleton --offsets

# writing to standard output fails
: >out
echo "error: the printer failed" >err
# shellcheck disable=SC2016 # the inner shell expands this
started 1 sh -c '"$0" same.wasm >/dev/full' "$program"

end_cases
