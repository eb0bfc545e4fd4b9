; Instructions of every line, as clang writes them, and names and constants that need care.
@"a b" = global [2 x i32] [i32 1, i32 -5], align 4
@c = dso_local global [4 x i8] zeroinitializer
@q = global i128 170141183460469231731687303715884105728, align 16

define i64 @f(i64 %n, ptr %p) {
entry:
  %words = alloca [2 x i32], align 4
  %odd = alloca i7
  %byte = getelementptr inbounds [4 x i8], ptr @c, i64 0, i64 %n
  %old = load i8, ptr %byte
  %word = load atomic i32, ptr @"a b" acquire, align 4
  store i32 %word, ptr %p, align 4
  store atomic i8 1, ptr getelementptr inbounds (i8, ptr @c, i64 1) unordered, align 1
  %pair = cmpxchg weak ptr getelementptr inbounds ([4 x i8], ptr @c, i64 0, i64 2), i8 0, i8 2 acq_rel monotonic, align 1
  %most = atomicrmw umax ptr @q, i128 340282366920938463463374607431768211455 release, align 16
  fence syncscope("singlethread") seq_cst
  br label %loop

loop:                                             ; preds = %loop, %entry
  %i = phi i64 [ 0, %entry ], [ %next, %loop ]
  %next = add nuw nsw i64 %i, 1
  %more = icmp ult i64 %next, %n
  br i1 %more, label %loop, label %done

done:                                             ; preds = %loop
  %flag = extractvalue { i8, i1 } %pair, 1
  %number = select i1 %flag, i64 %next, i64 -1
  %wide = zext i8 %old to i64
  %loaded = call i32 @__atomic_load_4(ptr %p, i32 5)
  ret i64 %number

dead:                                             ; No predecessors!
  unreachable
}

define i17 @""(double %d, <4 x i32> %v) {
  unreachable
}
