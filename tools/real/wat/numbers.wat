;; Operators on numbers, conversions, and constants at the limits of their ranges.
(module $numbers
  (func $i32_unary (export "i32_unary") (param $i i32) (param $l i64) (param $f f32) (param $d f64)
    (drop (i32.clz (local.get $i)))
    (drop (i32.ctz (local.get $i)))
    (drop (i32.popcnt (local.get $i)))
    (drop (i32.extend8_s (local.get $i)))
    (drop (i32.extend16_s (local.get $i)))
    (drop (i32.eqz (local.get $i))))
  (func $i32_binary (export "i32_binary") (param $i i32) (param $l i64) (param $f f32) (param $d f64)
    (drop (i32.add (local.get $i) (local.get $i)))
    (drop (i32.sub (local.get $i) (local.get $i)))
    (drop (i32.mul (local.get $i) (local.get $i)))
    (drop (i32.div_s (local.get $i) (local.get $i)))
    (drop (i32.div_u (local.get $i) (local.get $i)))
    (drop (i32.rem_s (local.get $i) (local.get $i)))
    (drop (i32.rem_u (local.get $i) (local.get $i)))
    (drop (i32.and (local.get $i) (local.get $i)))
    (drop (i32.or (local.get $i) (local.get $i)))
    (drop (i32.xor (local.get $i) (local.get $i)))
    (drop (i32.shl (local.get $i) (local.get $i)))
    (drop (i32.shr_s (local.get $i) (local.get $i)))
    (drop (i32.shr_u (local.get $i) (local.get $i)))
    (drop (i32.rotl (local.get $i) (local.get $i)))
    (drop (i32.rotr (local.get $i) (local.get $i)))
    (drop (i32.eq (local.get $i) (local.get $i)))
    (drop (i32.ne (local.get $i) (local.get $i)))
    (drop (i32.lt_s (local.get $i) (local.get $i)))
    (drop (i32.lt_u (local.get $i) (local.get $i)))
    (drop (i32.gt_s (local.get $i) (local.get $i)))
    (drop (i32.gt_u (local.get $i) (local.get $i)))
    (drop (i32.le_s (local.get $i) (local.get $i)))
    (drop (i32.le_u (local.get $i) (local.get $i)))
    (drop (i32.ge_s (local.get $i) (local.get $i)))
    (drop (i32.ge_u (local.get $i) (local.get $i))))
  (func $i64_unary (export "i64_unary") (param $i i32) (param $l i64) (param $f f32) (param $d f64)
    (drop (i64.clz (local.get $l)))
    (drop (i64.ctz (local.get $l)))
    (drop (i64.popcnt (local.get $l)))
    (drop (i64.extend8_s (local.get $l)))
    (drop (i64.extend16_s (local.get $l)))
    (drop (i64.eqz (local.get $l)))
    (drop (i64.extend32_s (local.get $l))))
  (func $i64_binary (export "i64_binary") (param $i i32) (param $l i64) (param $f f32) (param $d f64)
    (drop (i64.add (local.get $l) (local.get $l)))
    (drop (i64.sub (local.get $l) (local.get $l)))
    (drop (i64.mul (local.get $l) (local.get $l)))
    (drop (i64.div_s (local.get $l) (local.get $l)))
    (drop (i64.div_u (local.get $l) (local.get $l)))
    (drop (i64.rem_s (local.get $l) (local.get $l)))
    (drop (i64.rem_u (local.get $l) (local.get $l)))
    (drop (i64.and (local.get $l) (local.get $l)))
    (drop (i64.or (local.get $l) (local.get $l)))
    (drop (i64.xor (local.get $l) (local.get $l)))
    (drop (i64.shl (local.get $l) (local.get $l)))
    (drop (i64.shr_s (local.get $l) (local.get $l)))
    (drop (i64.shr_u (local.get $l) (local.get $l)))
    (drop (i64.rotl (local.get $l) (local.get $l)))
    (drop (i64.rotr (local.get $l) (local.get $l)))
    (drop (i64.eq (local.get $l) (local.get $l)))
    (drop (i64.ne (local.get $l) (local.get $l)))
    (drop (i64.lt_s (local.get $l) (local.get $l)))
    (drop (i64.lt_u (local.get $l) (local.get $l)))
    (drop (i64.gt_s (local.get $l) (local.get $l)))
    (drop (i64.gt_u (local.get $l) (local.get $l)))
    (drop (i64.le_s (local.get $l) (local.get $l)))
    (drop (i64.le_u (local.get $l) (local.get $l)))
    (drop (i64.ge_s (local.get $l) (local.get $l)))
    (drop (i64.ge_u (local.get $l) (local.get $l))))
  (func $f32_unary (export "f32_unary") (param $i i32) (param $l i64) (param $f f32) (param $d f64)
    (drop (f32.abs (local.get $f)))
    (drop (f32.neg (local.get $f)))
    (drop (f32.ceil (local.get $f)))
    (drop (f32.floor (local.get $f)))
    (drop (f32.trunc (local.get $f)))
    (drop (f32.nearest (local.get $f)))
    (drop (f32.sqrt (local.get $f))))
  (func $f32_binary (export "f32_binary") (param $i i32) (param $l i64) (param $f f32) (param $d f64)
    (drop (f32.add (local.get $f) (local.get $f)))
    (drop (f32.sub (local.get $f) (local.get $f)))
    (drop (f32.mul (local.get $f) (local.get $f)))
    (drop (f32.div (local.get $f) (local.get $f)))
    (drop (f32.min (local.get $f) (local.get $f)))
    (drop (f32.max (local.get $f) (local.get $f)))
    (drop (f32.copysign (local.get $f) (local.get $f)))
    (drop (f32.eq (local.get $f) (local.get $f)))
    (drop (f32.ne (local.get $f) (local.get $f)))
    (drop (f32.lt (local.get $f) (local.get $f)))
    (drop (f32.gt (local.get $f) (local.get $f)))
    (drop (f32.le (local.get $f) (local.get $f)))
    (drop (f32.ge (local.get $f) (local.get $f))))
  (func $f64_unary (export "f64_unary") (param $i i32) (param $l i64) (param $f f32) (param $d f64)
    (drop (f64.abs (local.get $d)))
    (drop (f64.neg (local.get $d)))
    (drop (f64.ceil (local.get $d)))
    (drop (f64.floor (local.get $d)))
    (drop (f64.trunc (local.get $d)))
    (drop (f64.nearest (local.get $d)))
    (drop (f64.sqrt (local.get $d))))
  (func $f64_binary (export "f64_binary") (param $i i32) (param $l i64) (param $f f32) (param $d f64)
    (drop (f64.add (local.get $d) (local.get $d)))
    (drop (f64.sub (local.get $d) (local.get $d)))
    (drop (f64.mul (local.get $d) (local.get $d)))
    (drop (f64.div (local.get $d) (local.get $d)))
    (drop (f64.min (local.get $d) (local.get $d)))
    (drop (f64.max (local.get $d) (local.get $d)))
    (drop (f64.copysign (local.get $d) (local.get $d)))
    (drop (f64.eq (local.get $d) (local.get $d)))
    (drop (f64.ne (local.get $d) (local.get $d)))
    (drop (f64.lt (local.get $d) (local.get $d)))
    (drop (f64.gt (local.get $d) (local.get $d)))
    (drop (f64.le (local.get $d) (local.get $d)))
    (drop (f64.ge (local.get $d) (local.get $d))))
  (func $conversions (export "conversions") (param $i i32) (param $l i64) (param $f f32) (param $d f64)
    (drop (i32.wrap_i64 (local.get $l)))
    (drop (i32.trunc_f32_s (local.get $f)))
    (drop (i32.trunc_f32_u (local.get $f)))
    (drop (i32.trunc_f64_s (local.get $d)))
    (drop (i32.trunc_f64_u (local.get $d)))
    (drop (i64.extend_i32_s (local.get $i)))
    (drop (i64.extend_i32_u (local.get $i)))
    (drop (i64.trunc_f32_s (local.get $f)))
    (drop (i64.trunc_f32_u (local.get $f)))
    (drop (i64.trunc_f64_s (local.get $d)))
    (drop (i64.trunc_f64_u (local.get $d)))
    (drop (f32.convert_i32_s (local.get $i)))
    (drop (f32.convert_i32_u (local.get $i)))
    (drop (f32.convert_i64_s (local.get $l)))
    (drop (f32.convert_i64_u (local.get $l)))
    (drop (f32.demote_f64 (local.get $d)))
    (drop (f64.convert_i32_s (local.get $i)))
    (drop (f64.convert_i32_u (local.get $i)))
    (drop (f64.convert_i64_s (local.get $l)))
    (drop (f64.convert_i64_u (local.get $l)))
    (drop (f64.promote_f32 (local.get $f)))
    (drop (i32.reinterpret_f32 (local.get $f)))
    (drop (i64.reinterpret_f64 (local.get $d)))
    (drop (f32.reinterpret_i32 (local.get $i)))
    (drop (f64.reinterpret_i64 (local.get $l)))
    (drop (i32.trunc_sat_f32_s (local.get $f)))
    (drop (i32.trunc_sat_f32_u (local.get $f)))
    (drop (i32.trunc_sat_f64_s (local.get $d)))
    (drop (i32.trunc_sat_f64_u (local.get $d)))
    (drop (i64.trunc_sat_f32_s (local.get $f)))
    (drop (i64.trunc_sat_f32_u (local.get $f)))
    (drop (i64.trunc_sat_f64_s (local.get $d)))
    (drop (i64.trunc_sat_f64_u (local.get $d))))
  (func $constants (export "constants") 
    i32.const 0
    drop
    i32.const -1
    drop
    i32.const 127
    drop
    i32.const -64
    drop
    i32.const 64
    drop
    i32.const 2147483647
    drop
    i32.const -2147483648
    drop
    i32.const 0xdead_beef
    drop
    i64.const 9223372036854775807
    drop
    i64.const -9223372036854775808
    drop
    i64.const 0x1_0000_0000
    drop
    i64.const -65
    drop
    f32.const 0
    drop
    f32.const -0
    drop
    f32.const 1.5
    drop
    f32.const 0x1.fffffep+127
    drop
    f32.const 0x1p-149
    drop
    f32.const inf
    drop
    f32.const -inf
    drop
    f32.const nan
    drop
    f32.const -nan
    drop
    f32.const nan:0x200000
    drop
    f32.const -nan:0x7fffff
    drop
    f32.const 3.4028234663852886e38
    drop
    f32.const 1e-45
    drop
    f64.const 0
    drop
    f64.const -0
    drop
    f64.const 0.1
    drop
    f64.const 1e308
    drop
    f64.const 0x1.fffffffffffffp+1023
    drop
    f64.const 0x1p-1074
    drop
    f64.const 2.2250738585072011e-308
    drop
    f64.const inf
    drop
    f64.const -inf
    drop
    f64.const nan
    drop
    f64.const -nan:0x1
    drop
    f64.const nan:0x4000000000000
    drop
    f64.const -nan:0xfffffffffffff
    drop)
)
