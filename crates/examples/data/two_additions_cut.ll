@x = global i64 0, align 8 ; Two additions, cut in line 6.
declare void @out(i64)
define void @f() {
  %1 = atomicrmw add ptr @x, i64 1 seq_cst, align 8
  call void @out(i64 %1)
  %2 = atomicrmw add ptr