; A subtraction of 16 bytes, which wraps.
@q = global i128 0, align 16
define void @f() {
  %1 = atomicrmw sub ptr @q, i128 1 seq_cst, align 16
  ret void
}
