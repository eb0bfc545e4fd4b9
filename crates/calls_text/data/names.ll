; Names of every kind: a parameter, a result, a label, and a global that is used before its line.
define void @f(i64 %p) {
  %r = atomicrmw add ptr @c, i64 %p seq_cst
  br label %x
x:
  store i64 %r, ptr @c
  ret void
}
@c = global i64 0, align 8
