; An index past the end of an alloca, which traps where it is used and not before.
@i = global i8 3, align 1
declare void @out(i64)
define void @f() {
  %a = alloca [3 x i16], align 2
  %i = load i8, ptr @i, align 1
  %p = getelementptr inbounds [3 x i16], ptr %a, i64 0, i8 %i
  call void @out(i64 1)
  store i16 1, ptr %p, align 2
  call void @out(i64 2)
  ret void
}
