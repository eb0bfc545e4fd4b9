; Loop with a phi: four additions, of 0, 1, 2 and 3.
@x = global i32 0, align 4
define void @f() {
entry:
  br label %loop
loop:
  %i = phi i32 [ 0, %entry ], [ %n, %loop ]
  %o = atomicrmw add ptr @x, i32 %i monotonic, align 4
  %n = add nuw nsw i32 %i, 1
  %c = icmp eq i32 %n, 4
  br i1 %c, label %done, label %loop
done:
  ret void
}
