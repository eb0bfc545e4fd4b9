; Bad ordering: a load has no release.
@x = global i32 0, align 4
define void @a() {
  %1 = load atomic i32, ptr @x release, align 4
  ret void
}
