(module
  (func (export "main") (result i64) (local $i i64) (local $total i64)
    (local.set $i (i64.const 1))
    (loop $next
      (local.set $total (i64.add (local.get $total) (local.get $i)))
      (local.set $i (i64.add (local.get $i) (i64.const 1)))
      (br_if $next (i64.le_u (local.get $i) (i64.const 10000000))))
    (local.get $total)))
