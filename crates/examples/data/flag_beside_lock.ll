; A lock byte, under which two processors count, and beside it in one word a flag byte, which a third
; one changes 51 times meanwhile.
@s = global [2 x i8] zeroinitializer, align 2
@count = global i64 0, align 8
define void @worker() {
  br label %1

1:
  %2 = atomicrmw xchg ptr @s, i8 1 acquire, align 1
  %3 = icmp eq i8 %2, 0
  br i1 %3, label %4, label %1

4:
  %5 = load i64, ptr @count, align 8
  %6 = add i64 %5, 1
  store i64 %6, ptr @count, align 8
  store atomic i8 0, ptr @s release, align 1
  ret void
}
define void @flagger() {
  br label %1

1:
  %2 = phi i64 [ 0, %0 ], [ %4, %1 ]
  %3 = atomicrmw xor ptr getelementptr inbounds ([2 x i8], ptr @s, i64 0, i64 1), i8 -1 monotonic, align 1
  %4 = add i64 %2, 1
  %5 = icmp eq i64 %4, 51
  br i1 %5, label %6, label %1

6:
  ret void
}
