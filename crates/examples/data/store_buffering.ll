; Store buffering: each processor stores to one global and then loads the other's. At least one of
; the loads gives 1, since stores reach memory at once on RV64.
@x = global i64 0, align 8
@y = global i64 0, align 8
declare void @out(i64)
define void @a() {
  store atomic i64 1, ptr @x monotonic, align 8
  %1 = load atomic i64, ptr @y monotonic, align 8
  call void @out(i64 %1)
  ret void
}
define void @b() {
  store atomic i64 1, ptr @y monotonic, align 8
  %1 = load atomic i64, ptr @x monotonic, align 8
  call void @out(i64 %1)
  ret void
}
