; A compare-exchange by a routine, which differs and puts what it found where it was told.
@x = global i32 10, align 4
declare void @out(i64)
define void @f() {
  %e = alloca i32, align 4
  %d = alloca i32, align 4
  store i32 3, ptr %e, align 4
  store i32 4, ptr %d, align 4
  %1 = call i1 @__atomic_compare_exchange(i64 4, ptr @x, ptr %e, ptr %d, i32 5, i32 5)
  %2 = zext i1 %1 to i64
  call void @out(i64 %2)
  %3 = load i32, ptr %e, align 4
  %4 = zext i32 %3 to i64
  call void @out(i64 %4)
  ret void
}
