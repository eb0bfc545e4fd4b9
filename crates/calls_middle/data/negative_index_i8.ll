; A negative index of i8, which traps where it is used.
@h = global [4 x i16] [i16 1, i16 2, i16 3, i16 4], align 2
@i = global i8 -1, align 1
declare void @out(i64)
define void @f() {
  %i = load i8, ptr @i, align 1
  %p = getelementptr inbounds [4 x i16], ptr @h, i64 0, i8 %i
  call void @out(i64 7)
  %v3 = load i16, ptr %p, align 2
  ret void
}
