@c = global i64 0, align 8
define void @f(i64 %p0) {
b0:
  %v0 = atomicrmw add ptr @c, i64 %p0 seq_cst, align 8
  br label %b1
b1:
  store i64 %v0, ptr @c
  ret void
}
