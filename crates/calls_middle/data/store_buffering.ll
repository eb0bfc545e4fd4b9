; Two processors store to one global each and load the other: both loads may give 0 on x86-64.
@x = global i32 0, align 4
@y = global i32 0, align 4
declare void @out(i64)
define void @a() {
  store atomic i32 1, ptr @x monotonic, align 4
  %1 = load atomic i32, ptr @y monotonic, align 4
  %2 = zext i32 %1 to i64
  call void @out(i64 %2)
  ret void
}
define void @b() {
  store atomic i32 1, ptr @y monotonic, align 4
  %1 = load atomic i32, ptr @x monotonic, align 4
  %2 = zext i32 %1 to i64
  call void @out(i64 %2)
  ret void
}
