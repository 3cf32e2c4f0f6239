;; Structured control: blocks of all types, loops, branches, tables of branches, selections, dead code, a start function.
(module
  (type $pair (func (param i32 i64) (result i64 i32)))
  (type $none (func))
  (import "env" "log" (func $log (param i32)))
  (start $begin)
  (func $begin (nop) (call $log (i32.const 1)))
  (func $swapped (type $pair) (param $a i32) (param $b i64) (result i64 i32)
    (local.get $b)
    (local.get $a))
  (func $flow (export "flow") (param $n i32) (result i32)
    (local $sum i32) (local $wide i64) (local i64 i64 f32)
    block $out (result i32)
      loop $again
        local.get $n
        i32.eqz
        if $done
          local.get $sum
          br $out
        end
        local.get $sum
        local.get $n
        i32.add
        local.set $sum
        local.get $n
        i32.const 1
        i32.sub
        local.tee $n
        br_if $again
        (if (i32.gt_s (local.get $sum) (i32.const 100)) (then (br $again)) (else (nop)))
      end
      local.get $sum
    end)
  (func $switch (export "switch") (param i32) (result i32)
    (block $c (block $b (block $a
      (br_table $a $b $c $a (local.get 0)))
      (return (i32.const 10)))
      (return (i32.const 20)))
    (if (result i32) (local.get 0)
      (then (i32.const 30))
      (else (unreachable))))
  (func $values (export "values") (param $n i32) (result i64 i32)
    (local.get $n)
    (i64.const 5)
    block (type $pair)
      call $swapped
    end
    (drop)
    (i64.extend_i32_u (local.get $n))
    (i32.wrap_i64)
    (i64.const 6)
    (loop (param i32 i64) (result i64 i32)
      (call $swapped))
    (local.get $n)
    (i64.const 9)
    (if (type $pair) (param i32 i64) (result i64 i32) (i32.const 1)
      (then (call $swapped))
      (else (call $swapped) (drop) (drop) (i64.const 7) (i32.const 8)))
    drop
    drop
    drop
    drop
    drop
    i64.const 1
    i32.const 2)
  (func $picked (export "picked") (param $n i32) (result f64)
    (select (f64.const 1) (f64.const 2) (local.get $n))
    (select (result f64) (f64.const 3) (f64.const 4) (local.get $n))
    (drop (select (result externref) (ref.null extern) (ref.null extern) (local.get $n)))
    f64.add)
  (func $dead (export "dead") (result i32)
    unreachable
    i32.add
    drop
    f32.const 1
    drop
    i32.const 0
    return
    br 0)
  (func $deep (export "deep")
    block block block block block block block block block block
    loop loop loop loop loop loop loop loop loop loop
    br 19
    end end end end end end end end end end
    end end end end end end end end end end))
