; A loop of ten thousand turns.
declare void @out(i64)
define void @f() {
entry:
  br label %loop
loop:
  %i = phi i64 [ 0, %entry ], [ %n, %loop ]
  %n = add i64 %i, 1
  %c = icmp eq i64 %n, 10000
  br i1 %c, label %done, label %loop
done:
  call void @out(i64 %n)
  ret void
}
