; The phis of a block are set together: two numbers change places twice.
declare void @out(i64)
define void @f() {
entry:
  br label %loop
loop:
  %a = phi i64 [ 1, %entry ], [ %b, %loop ]
  %b = phi i64 [ 2, %entry ], [ %a, %loop ]
  %i = phi i32 [ 0, %entry ], [ %n, %loop ]
  %n = add i32 %i, 1
  %c = icmp eq i32 %n, 3
  br i1 %c, label %done, label %loop
done:
  call void @out(i64 %a)
  ret void
}
