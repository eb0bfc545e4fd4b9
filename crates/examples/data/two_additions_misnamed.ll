@x = global i64 0, align 8 ; Two additions, with %9 for %2 in line 7.
declare void @out(i64)
define void @f() {
  %1 = atomicrmw add ptr @x, i64 1 seq_cst, align 8
  call void @out(i64 %1)
  %2 = atomicrmw add ptr @x, i64 1 seq_cst, align 8
  call void @out(i64 %9)
  ret void
}
