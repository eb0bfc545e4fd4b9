; Plain loads and stores of globals of each width, whose stores wait on x86-64 until they are
; drained, and are seen by their own processor.
@b = global [2 x i8] [i8 1, i8 2], align 1
@h = global [2 x i16] [i16 1, i16 2], align 2
@w = global [2 x i32] [i32 1, i32 2], align 4
@d = global [2 x i64] [i64 1, i64 2], align 8
declare void @out(i64)
define void @f() {
  %v1 = load i8, ptr getelementptr inbounds ([2 x i8], ptr @b, i64 0, i64 1), align 1
  %v2 = sub i8 %v1, 5
  store i8 %v2, ptr getelementptr inbounds ([2 x i8], ptr @b, i64 0, i64 1), align 1
  %v3 = load i8, ptr getelementptr inbounds ([2 x i8], ptr @b, i64 0, i64 1), align 1
  %v4 = zext i8 %v3 to i64
  call void @out(i64 %v4)
  %v5 = load i8, ptr @b, align 1
  %v6 = zext i8 %v5 to i64
  call void @out(i64 %v6)
  %v7 = load i16, ptr getelementptr inbounds ([2 x i16], ptr @h, i64 0, i64 1), align 2
  %v8 = sub i16 %v7, 5
  store i16 %v8, ptr getelementptr inbounds ([2 x i16], ptr @h, i64 0, i64 1), align 2
  %v9 = load i16, ptr getelementptr inbounds ([2 x i16], ptr @h, i64 0, i64 1), align 2
  %v10 = zext i16 %v9 to i64
  call void @out(i64 %v10)
  %v11 = load i16, ptr @h, align 2
  %v12 = zext i16 %v11 to i64
  call void @out(i64 %v12)
  %v13 = load i32, ptr getelementptr inbounds ([2 x i32], ptr @w, i64 0, i64 1), align 4
  %v14 = sub i32 %v13, 5
  store i32 %v14, ptr getelementptr inbounds ([2 x i32], ptr @w, i64 0, i64 1), align 4
  %v15 = load i32, ptr getelementptr inbounds ([2 x i32], ptr @w, i64 0, i64 1), align 4
  %v16 = zext i32 %v15 to i64
  call void @out(i64 %v16)
  %v17 = load i32, ptr @w, align 4
  %v18 = zext i32 %v17 to i64
  call void @out(i64 %v18)
  %v19 = load i64, ptr getelementptr inbounds ([2 x i64], ptr @d, i64 0, i64 1), align 8
  %v20 = sub i64 %v19, 5
  store i64 %v20, ptr getelementptr inbounds ([2 x i64], ptr @d, i64 0, i64 1), align 8
  %v21 = load i64, ptr getelementptr inbounds ([2 x i64], ptr @d, i64 0, i64 1), align 8
  call void @out(i64 %v21)
  %v22 = load i64, ptr @d, align 8
  call void @out(i64 %v22)
  ret void
}
