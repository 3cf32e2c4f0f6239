;; A `dylink.0` section: the requirements of a shared library.
(module
  (@dylink.0
    (mem-info (memory 16 4) (table 2 0))
    (needed "libc.so" "libm.so")
    (export-info "f" binding-weak undefined)
    (import-info "env" "g" tls)
    (runtime-path "/lib" "$ORIGIN"))
  (import "env" "memory" (memory 1))
  (import "env" "__memory_base" (global $base i32))
  (func $f (export "f") (result i32) (i32.load (global.get $base)))
  (data (global.get $base) "0123456789abcdef"))
