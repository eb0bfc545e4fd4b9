; Each read-modify-write of i64 by 5, of an element each that holds -3.
@x = global [11 x i64] [i64 -3, i64 -3, i64 -3, i64 -3, i64 -3, i64 -3, i64 -3, i64 -3, i64 -3, i64 -3, i64 -3], align 8
declare void @out(i64)
define void @f() {
  %v1 = atomicrmw xchg ptr getelementptr inbounds ([11 x i64], ptr @x, i64 0, i64 0), i64 5 acq_rel, align 8
  call void @out(i64 %v1)
  %v2 = atomicrmw add ptr getelementptr inbounds ([11 x i64], ptr @x, i64 0, i64 1), i64 5 acq_rel, align 8
  call void @out(i64 %v2)
  %v3 = atomicrmw sub ptr getelementptr inbounds ([11 x i64], ptr @x, i64 0, i64 2), i64 5 acq_rel, align 8
  call void @out(i64 %v3)
  %v4 = atomicrmw and ptr getelementptr inbounds ([11 x i64], ptr @x, i64 0, i64 3), i64 5 acq_rel, align 8
  call void @out(i64 %v4)
  %v5 = atomicrmw nand ptr getelementptr inbounds ([11 x i64], ptr @x, i64 0, i64 4), i64 5 acq_rel, align 8
  call void @out(i64 %v5)
  %v6 = atomicrmw or ptr getelementptr inbounds ([11 x i64], ptr @x, i64 0, i64 5), i64 5 acq_rel, align 8
  call void @out(i64 %v6)
  %v7 = atomicrmw xor ptr getelementptr inbounds ([11 x i64], ptr @x, i64 0, i64 6), i64 5 acq_rel, align 8
  call void @out(i64 %v7)
  %v8 = atomicrmw max ptr getelementptr inbounds ([11 x i64], ptr @x, i64 0, i64 7), i64 5 acq_rel, align 8
  call void @out(i64 %v8)
  %v9 = atomicrmw min ptr getelementptr inbounds ([11 x i64], ptr @x, i64 0, i64 8), i64 5 acq_rel, align 8
  call void @out(i64 %v9)
  %v10 = atomicrmw umax ptr getelementptr inbounds ([11 x i64], ptr @x, i64 0, i64 9), i64 5 acq_rel, align 8
  call void @out(i64 %v10)
  %v11 = atomicrmw umin ptr getelementptr inbounds ([11 x i64], ptr @x, i64 0, i64 10), i64 5 acq_rel, align 8
  call void @out(i64 %v11)
  ret void
}
