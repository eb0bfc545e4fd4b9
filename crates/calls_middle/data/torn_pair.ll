; A compare-exchange of 16 bytes beside a store of them, of which no half may be seen alone.
@q = global i128 0, align 16
declare void @out(i64)
define void @a() {
  %1 = cmpxchg ptr @q, i128 0, i128 1 seq_cst seq_cst, align 16
  %2 = extractvalue { i128, i1 } %1, 0
  %3 = trunc i128 %2 to i64
  call void @out(i64 %3)
  ret void
}
define void @b() {
  store atomic i128 36893488147419103234, ptr @q seq_cst, align 16
  ret void
}
