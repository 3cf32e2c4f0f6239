;; Branch hints.
(module
  (func $hinted (export "hinted") (param i32) (result i32)
    local.get 0
    (@metadata.code.branch_hint "\00")
    if
      i32.const 1
      return
    end
    block $out
      local.get 0
      (@metadata.code.branch_hint "\01")
      br_if $out
      (if (local.get 0) (then (return (i32.const 2))))
    end
    i32.const 3)
  (func $plain (param i32) (result i32) (local.get 0))
  (func $again (export "again") (param i32)
    loop $more
      local.get 0
      (@metadata.code.branch_hint "\01")
      br_if $more
    end))
