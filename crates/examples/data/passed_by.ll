; One processor waits behind its first addition until the other has passed by.
@x = global i64 0, align 8
@passed = global i64 0, align 8
declare void @out(i64)
define void @a() {
entry:
  %1 = atomicrmw add ptr @x, i64 1 seq_cst, align 8
  call void @out(i64 %1)
  br label %wait
wait:
  %2 = load atomic i64, ptr @passed acquire, align 8
  %3 = icmp eq i64 %2, 1
  br i1 %3, label %go, label %wait
go:
  %4 = atomicrmw add ptr @x, i64 1 seq_cst, align 8
  call void @out(i64 %4)
  ret void
}
define void @b() {
  %1 = atomicrmw add ptr @x, i64 1 seq_cst, align 8
  call void @out(i64 %1)
  %2 = atomicrmw add ptr @x, i64 1 seq_cst, align 8
  call void @out(i64 %2)
  store atomic i64 1, ptr @passed release, align 8
  ret void
}
