; Plain access to a locked object, with an alignment that its address hasn't.
@p = global i8 0, align 1
@u = global i32 0, align 1
define void @a() {
  %1 = load i32, ptr @u, align 4
  ret void
}
