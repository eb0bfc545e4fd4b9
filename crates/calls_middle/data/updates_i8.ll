; Each read-modify-write of i8 by 5, of an element each that holds -3.
@x = global [11 x i8] [i8 -3, i8 -3, i8 -3, i8 -3, i8 -3, i8 -3, i8 -3, i8 -3, i8 -3, i8 -3, i8 -3], align 1
declare void @out(i64)
define void @f() {
  %v1 = atomicrmw xchg ptr getelementptr inbounds ([11 x i8], ptr @x, i64 0, i64 0), i8 5 acq_rel, align 1
  %v2 = zext i8 %v1 to i64
  call void @out(i64 %v2)
  %v3 = atomicrmw add ptr getelementptr inbounds ([11 x i8], ptr @x, i64 0, i64 1), i8 5 acq_rel, align 1
  %v4 = zext i8 %v3 to i64
  call void @out(i64 %v4)
  %v5 = atomicrmw sub ptr getelementptr inbounds ([11 x i8], ptr @x, i64 0, i64 2), i8 5 acq_rel, align 1
  %v6 = zext i8 %v5 to i64
  call void @out(i64 %v6)
  %v7 = atomicrmw and ptr getelementptr inbounds ([11 x i8], ptr @x, i64 0, i64 3), i8 5 acq_rel, align 1
  %v8 = zext i8 %v7 to i64
  call void @out(i64 %v8)
  %v9 = atomicrmw nand ptr getelementptr inbounds ([11 x i8], ptr @x, i64 0, i64 4), i8 5 acq_rel, align 1
  %v10 = zext i8 %v9 to i64
  call void @out(i64 %v10)
  %v11 = atomicrmw or ptr getelementptr inbounds ([11 x i8], ptr @x, i64 0, i64 5), i8 5 acq_rel, align 1
  %v12 = zext i8 %v11 to i64
  call void @out(i64 %v12)
  %v13 = atomicrmw xor ptr getelementptr inbounds ([11 x i8], ptr @x, i64 0, i64 6), i8 5 acq_rel, align 1
  %v14 = zext i8 %v13 to i64
  call void @out(i64 %v14)
  %v15 = atomicrmw max ptr getelementptr inbounds ([11 x i8], ptr @x, i64 0, i64 7), i8 5 acq_rel, align 1
  %v16 = zext i8 %v15 to i64
  call void @out(i64 %v16)
  %v17 = atomicrmw min ptr getelementptr inbounds ([11 x i8], ptr @x, i64 0, i64 8), i8 5 acq_rel, align 1
  %v18 = zext i8 %v17 to i64
  call void @out(i64 %v18)
  %v19 = atomicrmw umax ptr getelementptr inbounds ([11 x i8], ptr @x, i64 0, i64 9), i8 5 acq_rel, align 1
  %v20 = zext i8 %v19 to i64
  call void @out(i64 %v20)
  %v21 = atomicrmw umin ptr getelementptr inbounds ([11 x i8], ptr @x, i64 0, i64 10), i8 5 acq_rel, align 1
  %v22 = zext i8 %v21 to i64
  call void @out(i64 %v22)
  ret void
}
