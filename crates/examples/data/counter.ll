; A counter that each processor adds to a hundred times.
@x = global i64 0, align 8
define void @f() {
entry:
  br label %loop
loop:
  %i = phi i64 [ 0, %entry ], [ %n, %loop ]
  %o = atomicrmw add ptr @x, i64 1 monotonic, align 8
  %n = add i64 %i, 1
  %c = icmp eq i64 %n, 100
  br i1 %c, label %done, label %loop
done:
  ret void
}
