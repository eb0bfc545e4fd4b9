; Between the linked load and the pair store of one processor another stores a second number and then
; the first again. The number is the expected one, and yet the pair store fails.
@x = global i64 5, align 8
declare void @out(i64)
define void @weak() {
  %1 = cmpxchg weak ptr @x, i64 5, i64 6 seq_cst seq_cst, align 8
  %2 = extractvalue { i64, i1 } %1, 1
  %3 = zext i1 %2 to i64
  call void @out(i64 %3)
  ret void
}
define void @strong() {
  %1 = cmpxchg ptr @x, i64 5, i64 6 seq_cst seq_cst, align 8
  %2 = extractvalue { i64, i1 } %1, 1
  %3 = zext i1 %2 to i64
  call void @out(i64 %3)
  ret void
}
define void @other() {
  store atomic i64 9, ptr @x seq_cst, align 8
  store atomic i64 5, ptr @x seq_cst, align 8
  ret void
}
