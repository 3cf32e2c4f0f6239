;; Page sizes: one byte, and the default size given explicitly.
(module
  (memory $bytes (export "bytes") 10 20 (pagesize 1))
  (memory $pages 1 (pagesize 65536))
  (data (memory $bytes) (i32.const 3) "tiny")
  (func (export "size") (result i32) (memory.size $bytes))
  (func (export "load") (result i32) (i32.load8_u $bytes (i32.const 3))))
