@"a b" = global [ 2 x i32 ] [ i32 1, i32 -5 ], align 4
@c = global [ 4 x i8 ] zeroinitializer
@q = global i128 170141183460469231731687303715884105728, align 16
define i64 @f(i64 %p0, ptr %p1) {
b0:
  %v0 = alloca [ 2 x i32 ], align 4
  %v1 = alloca i7
  %v2 = getelementptr [ 4 x i8 ], ptr @c, i64 0, i64 %p0
  %v3 = load i8, ptr %v2
  %v4 = load atomic i32, ptr @"a b" acquire, align 4
  store i32 %v4, ptr %p1, align 4
  store atomic i8 1, ptr getelementptr(i8, ptr @c, i64 1) unordered, align 1
  %v7 = cmpxchg weak ptr getelementptr([ 4 x i8 ], ptr @c, i64 0, i64 2), i8 0, i8 2 acq_rel monotonic, align 1
  %v8 = atomicrmw umax ptr @q, i128 340282366920938463463374607431768211455 release, align 16
  fence syncscope("singlethread") seq_cst
  br label %b1
b1:
  %v11 = phi i64 [ 0, %b0 ], [ %v12, %b1 ]
  %v12 = add i64 %v11, 1
  %v13 = icmp ult i64 %v12, %p0
  br i1 %v13, label %b1, label %b2
b2:
  %v15 = extractvalue { i8, i1 } %v7, 1
  %v16 = select i1 %v15, i64 %v12, i64 -1
  %v17 = zext i8 %v3 to i64
  %v18 = call i32 @__atomic_load_4(ptr %p1, i32 5)
  ret i64 %v16
b3:
  unreachable
}
define i17 @""(double %p0, < 1 x i8 > %p1) {
b0:
  unreachable
}
