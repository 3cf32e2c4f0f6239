;; Legacy exception handling: `try`, `catch`, `catch_all`, `rethrow`, `delegate`. These operators can't be folded.
(module
  (tag $error (param i32))
  (tag $other)
  (func $risky (export "risky") (throw $error (i32.const 9)))
  (func $caught (export "caught") (result i32)
    try $whole (result i32)
      call $risky
      i32.const 1
    catch $error
      i32.const 2
      i32.add
    catch $other
      i32.const 3
    catch_all
      try
        rethrow $whole
      catch_all
      end
      i32.const 4
    end)
  (func $delegated (export "delegated") (result i32)
    (local $seen i32)
    try $outer
      try $inner
        call $risky
      delegate $outer
      try
        call $risky
      delegate 1
    catch_all
      i32.const 1
      local.set $seen
    end
    local.get $seen)
  (func $plain (export "plain") (param i32 i32) (result i32)
    (i32.add (local.get 0) (local.get 1))))
