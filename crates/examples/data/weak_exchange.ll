; A weak compare-exchange. It may fail though the numbers are equal, where its reservation is lost.
@x = global i64 5, align 8
declare void @out(i64)
define void @f() {
  %1 = cmpxchg weak ptr @x, i64 5, i64 6 seq_cst seq_cst, align 8
  %2 = extractvalue { i64, i1 } %1, 1
  %3 = zext i1 %2 to i64
  call void @out(i64 %3)
  ret void
}
