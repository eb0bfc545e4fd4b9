@x = global i64 0, align 8
declare void @out(i64)
define void @f() {
  %1 = atomicrmw add ptr @x, i64 1 seq_cst, align 8
  call void @out(i64 %1)
  %2 = atomicrmw add ptr @x, i64 1 seq_cst, align 8
  call void @out(i64 %2)
  ret void
}
