;; Standard exception handling: tags, `throw`, `try_table` with all kinds of catches, references to exceptions.
(module
  (type $error (func (param i32 i64)))
  (import "env" "imported" (tag $imported (type $error)))
  (tag $own (export "own") (param i32 i64))
  (tag $empty)
  (func $risky (param i32)
    (if (local.get 0) (then (throw $own (i32.const 1) (i64.const 2))))
    (throw $empty))
  (func $caught (export "caught") (param i32) (result i32 i64)
    (block $all (result exnref)
      (block $none
        (block $both (result i32 i64)
          (block $with (result i32 i64 exnref)
            (try_table (catch $own $both) (catch_ref $imported $with) (catch $empty $none) (catch_all_ref $all)
              (call $risky (local.get 0)))
            (return (i32.const 0) (i64.const 0)))
          drop)
        return)
      (return (i32.const 3) (i64.const 4)))
    throw_ref)
  (func $typed (export "typed") (result i32)
    block $any
      try_table (result i32) (catch_all $any)
        i32.const 5
        call $risky
        i32.const 6
      end
      return
    end
    i32.const 7)
  (func $nothing (export "nothing") (param exnref) (result i32)
    (ref.is_null (local.get 0))
    (drop (ref.null exn))))
