; Which stores wait on x86-64+cx16, and what sends them to their objects.
@d = global i64 0, align 8
@q = global i128 0, align 16
define void @f() {
  store atomic i64 1, ptr @d release, align 8
  fence acq_rel
  store atomic i128 5, ptr @q monotonic, align 16
  store i64 2, ptr @d, align 8
  fence seq_cst
  store atomic i64 3, ptr @d monotonic, align 8
  %1 = atomicrmw or ptr @q, i128 8 monotonic, align 16
  store atomic i64 4, ptr @d monotonic, align 8
  store atomic i64 6, ptr @d seq_cst, align 8
  ret void
}
