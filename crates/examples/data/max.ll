; Signed maximum: 1 is greater than -1.
@x = global i32 -1, align 4
declare void @out(i64)
define void @f() {
  %1 = atomicrmw max ptr @x, i32 1 monotonic, align 4
  %2 = zext i32 %1 to i64
  call void @out(i64 %2)
  ret void
}
