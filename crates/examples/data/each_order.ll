; Each order of loads, stores and additions of i64, so that the assembly has each row of the mapping
; table for them.
@a = global i64 7, align 8
@b = global i64 0, align 8
declare void @out(i64)
define void @f() {
  %1 = load atomic i64, ptr @a monotonic, align 8
  store atomic i64 %1, ptr @b release, align 8
  %2 = load atomic i64, ptr @b acquire, align 8
  call void @out(i64 %2)
  store atomic i64 3, ptr @a seq_cst, align 8
  %9 = load atomic i64, ptr @a seq_cst, align 8
  call void @out(i64 %9)
  store atomic i64 18446744073709551615, ptr @b monotonic, align 8
  ret void
}
define void @g() {
  %r0 = atomicrmw add ptr @a, i64 1 monotonic, align 8
  %r1 = atomicrmw add ptr @a, i64 1 acquire, align 8
  %r2 = atomicrmw add ptr @a, i64 1 release, align 8
  %r3 = atomicrmw add ptr @a, i64 1 acq_rel, align 8
  ret void
}
