;; Names of every kind of item, including unusual names, and names that shadow others.
(module $"a module's name"
  (type $"type with blanks" (func (param i32)))
  (type $pair (struct (field $left i32) (field $"right (mut)" (mut i64)) (field f32)))
  (import "env" "f" (func $imported_f (type $"type with blanks")))
  (import "" "\u{1f600}" (func $"\u{1f600}"))
  (import "quote\"d" "back\\slash\09tab\00null" (global $"quote\"d" i32))
  (table $"a table" 1 funcref)
  (memory $"a memory" 1)
  (global $global (mut i32) (i32.const 0))
  (global $#strange (mut i32) (i32.const 1))
  (tag $"a tag" (param i32))
  (elem $"an element" (i32.const 0) func $f)
  (data $"some data" (i32.const 0) "x")
  (func $f (export "f") (export "g") (export "") (export "with \"quotes\" and \\ and \e2\80\a8")
    (param $x i32) (param $"x y" i32) (result i32)
    (local $local i64) (local $#hidden f32) (local f64)
    block $label
      block $label
        br $label
        local.get $x
        br_if 1
      end
      loop $"a loop"
        br $"a loop"
      end
      block $outer
        loop $inner
          br $outer
        end
      end
    end
    (if $which (local.get $"x y")
      (then (br $which))
      (else (br 1 (global.get $global))))
    (global.get $#strange))
  (func $!#$%&'*+-./:<=>?@\^_`|~)
  (func $f.1 (param $p i32) (param i32) (result i32) (local.get $p))
  (func $"non-ASCII \c3\a9")
  (func (export "unnamed") (result i32) (i32.const 0)))
