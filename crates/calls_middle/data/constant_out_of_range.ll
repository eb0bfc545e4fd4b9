; Constant indexes: the last element, one past it, and a negative one. Each past the end traps where it is used.
@h = global [4 x i16] [i16 1, i16 2, i16 3, i16 4], align 2
declare void @out(i64)
define void @f() {
  store atomic i16 9, ptr getelementptr inbounds ([4 x i16], ptr @h, i64 0, i64 3) seq_cst, align 2
  call void @out(i64 1)
  store atomic i16 7, ptr getelementptr inbounds ([4 x i16], ptr @h, i64 0, i64 4) seq_cst, align 2
  call void @out(i64 2)
  ret void
}
define void @g() {
  call void @out(i64 3)
  %v = load i16, ptr getelementptr inbounds ([4 x i16], ptr @h, i64 0, i64 -1), align 2
  ret void
}
