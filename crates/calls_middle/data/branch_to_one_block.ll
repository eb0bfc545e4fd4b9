; Branches whose sides are one block, where the test holds and where it fails: the block is entered, and its
; phi set, all the same.
@x = global i32 5, align 4
declare void @out(i64)
define void @f() {
entry:
  %v = load i32, ptr @x, align 4
  %c = icmp eq i32 %v, 5
  br i1 %c, label %one, label %one
one:
  %a = phi i64 [ 7, %entry ], [ 7, %entry ]
  call void @out(i64 %a)
  %d = icmp eq i32 %v, 6
  br i1 %d, label %two, label %two
two:
  %e = phi i64 [ %a, %one ], [ %a, %one ]
  %s = add i64 %e, 1
  call void @out(i64 %s)
  ret void
}
