; Two phis of 128 bits that get each other's numbers, both halves of each.
declare void @out(i64)
define void @f() {
entry:
  br label %loop
loop:
  %a = phi i128 [ 18446744073709551618, %entry ], [ %b, %loop ]
  %b = phi i128 [ 55340232221128654852, %entry ], [ %a, %loop ]
  %i = phi i8 [ 254, %entry ], [ %n, %loop ]
  %n = add i8 %i, 1
  %c = icmp eq i8 %n, 0
  br i1 %c, label %done, label %loop
done:
  %low = trunc i128 %a to i64
  call void @out(i64 %low)
  %shifted = lshr i128 %a, 64
  %high = trunc i128 %shifted to i64
  call void @out(i64 %high)
  ret void
}
