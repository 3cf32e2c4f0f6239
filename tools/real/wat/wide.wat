;; Wide arithmetic.
(module
  (func $add128 (export "add128") (param i64 i64 i64 i64) (result i64 i64)
    (i64.add128 (local.get 0) (local.get 1) (local.get 2) (local.get 3)))
  (func $sub128 (export "sub128") (param i64 i64 i64 i64) (result i64 i64)
    local.get 0
    local.get 1
    local.get 2
    local.get 3
    i64.sub128)
  (func $products (export "products") (param $a i64) (param $b i64) (result i64 i64 i64 i64)
    (i64.mul_wide_s (local.get $a) (local.get $b))
    (i64.mul_wide_u (local.get $a) (local.get $b))))
