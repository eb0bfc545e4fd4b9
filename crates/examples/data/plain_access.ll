; Plain access to a locked object, which lies at 0x10001.
@p = global i8 0, align 1
@u = global i32 0, align 1
define void @a() {
  %1 = load i32, ptr @u, align 1
  ret void
}
