;; Tail calls, and calls by reference.
(module
  (type $binary (func (param i32 i32) (result i32)))
  (import "env" "other" (func $other (type $binary)))
  (table $all 2 funcref)
  (elem (table $all) (i32.const 0) func $direct $other)
  (elem declare func $through)
  (func $direct (export "direct") (type $binary)
    (return_call $other (local.get 1) (local.get 0)))
  (func $through (export "through") (type $binary)
    local.get 0
    local.get 1
    local.get 0
    return_call_indirect $all (type $binary))
  (func $by_reference (export "by_reference") (param $f (ref null $binary)) (result i32)
    (i32.const 1)
    (i32.const 2)
    (return_call_ref $binary (local.get $f)))
  (func $called (export "called") (result i32)
    (call_ref $binary (i32.const 3) (i32.const 4) (ref.func $through))))
