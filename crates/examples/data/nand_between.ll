; Between the linked load and the pair store of a nand another processor stores to its object: the
; loop begins again, and works on what was stored.
@x = global i64 5, align 8
declare void @out(i64)
define void @f() {
  %1 = atomicrmw nand ptr @x, i64 3 seq_cst, align 8
  call void @out(i64 %1)
  ret void
}
define void @other() {
  store atomic i64 9, ptr @x seq_cst, align 8
  ret void
}
