; A read-modify-write by a routine of the library.
@x = global i32 10, align 4
declare void @out(i64)
define void @f() {
  %1 = call i32 @__atomic_fetch_nand_4(ptr @x, i32 12, i32 5)
  %2 = zext i32 %1 to i64
  call void @out(i64 %2)
  ret void
}
