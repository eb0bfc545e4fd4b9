; Four processors, each of which counts to 100 in its own byte of one word.
@c = global [4 x i8] zeroinitializer, align 4
define void @count0() {
  br label %1

1:
  %2 = phi i64 [ 0, %0 ], [ %4, %1 ]
  %3 = atomicrmw add ptr @c, i8 1 monotonic, align 1
  %4 = add i64 %2, 1
  %5 = icmp eq i64 %4, 100
  br i1 %5, label %6, label %1

6:
  ret void
}
define void @count1() {
  br label %1

1:
  %2 = phi i64 [ 0, %0 ], [ %4, %1 ]
  %3 = atomicrmw add ptr getelementptr inbounds ([4 x i8], ptr @c, i64 0, i64 1), i8 1 monotonic, align 1
  %4 = add i64 %2, 1
  %5 = icmp eq i64 %4, 100
  br i1 %5, label %6, label %1

6:
  ret void
}
define void @count2() {
  br label %1

1:
  %2 = phi i64 [ 0, %0 ], [ %4, %1 ]
  %3 = atomicrmw add ptr getelementptr inbounds ([4 x i8], ptr @c, i64 0, i64 2), i8 1 monotonic, align 1
  %4 = add i64 %2, 1
  %5 = icmp eq i64 %4, 100
  br i1 %5, label %6, label %1

6:
  ret void
}
define void @count3() {
  br label %1

1:
  %2 = phi i64 [ 0, %0 ], [ %4, %1 ]
  %3 = atomicrmw add ptr getelementptr inbounds ([4 x i8], ptr @c, i64 0, i64 3), i8 1 monotonic, align 1
  %4 = add i64 %2, 1
  %5 = icmp eq i64 %4, 100
  br i1 %5, label %6, label %1

6:
  ret void
}
