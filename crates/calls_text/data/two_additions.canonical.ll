@x = global i64 0, align 8
define void @f() {
b0:
  %v0 = atomicrmw add ptr @x, i64 1 seq_cst, align 8
  call void @out(i64 %v0)
  %v2 = atomicrmw add ptr @x, i64 1 seq_cst, align 8
  call void @out(i64 %v2)
  ret void
}
