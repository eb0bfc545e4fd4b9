; Each read-modify-write of i128 by 5, of an element each that holds -3.
@x = global [11 x i128] [i128 -3, i128 -3, i128 -3, i128 -3, i128 -3, i128 -3, i128 -3, i128 -3, i128 -3, i128 -3, i128 -3], align 16
declare void @out(i64)
define void @f() {
  %v1 = atomicrmw xchg ptr getelementptr inbounds ([11 x i128], ptr @x, i64 0, i64 0), i128 5 acq_rel, align 16
  %v2 = trunc i128 %v1 to i64
  call void @out(i64 %v2)
  %v3 = atomicrmw add ptr getelementptr inbounds ([11 x i128], ptr @x, i64 0, i64 1), i128 5 acq_rel, align 16
  %v4 = trunc i128 %v3 to i64
  call void @out(i64 %v4)
  %v5 = atomicrmw sub ptr getelementptr inbounds ([11 x i128], ptr @x, i64 0, i64 2), i128 5 acq_rel, align 16
  %v6 = trunc i128 %v5 to i64
  call void @out(i64 %v6)
  %v7 = atomicrmw and ptr getelementptr inbounds ([11 x i128], ptr @x, i64 0, i64 3), i128 5 acq_rel, align 16
  %v8 = trunc i128 %v7 to i64
  call void @out(i64 %v8)
  %v9 = atomicrmw nand ptr getelementptr inbounds ([11 x i128], ptr @x, i64 0, i64 4), i128 5 acq_rel, align 16
  %v10 = trunc i128 %v9 to i64
  call void @out(i64 %v10)
  %v11 = atomicrmw or ptr getelementptr inbounds ([11 x i128], ptr @x, i64 0, i64 5), i128 5 acq_rel, align 16
  %v12 = trunc i128 %v11 to i64
  call void @out(i64 %v12)
  %v13 = atomicrmw xor ptr getelementptr inbounds ([11 x i128], ptr @x, i64 0, i64 6), i128 5 acq_rel, align 16
  %v14 = trunc i128 %v13 to i64
  call void @out(i64 %v14)
  %v15 = atomicrmw max ptr getelementptr inbounds ([11 x i128], ptr @x, i64 0, i64 7), i128 5 acq_rel, align 16
  %v16 = trunc i128 %v15 to i64
  call void @out(i64 %v16)
  %v17 = atomicrmw min ptr getelementptr inbounds ([11 x i128], ptr @x, i64 0, i64 8), i128 5 acq_rel, align 16
  %v18 = trunc i128 %v17 to i64
  call void @out(i64 %v18)
  %v19 = atomicrmw umax ptr getelementptr inbounds ([11 x i128], ptr @x, i64 0, i64 9), i128 5 acq_rel, align 16
  %v20 = trunc i128 %v19 to i64
  call void @out(i64 %v20)
  %v21 = atomicrmw umin ptr getelementptr inbounds ([11 x i128], ptr @x, i64 0, i64 10), i128 5 acq_rel, align 16
  %v22 = trunc i128 %v21 to i64
  call void @out(i64 %v22)
  ret void
}
