; Indexes: constants, one of i32 and one of i8 that are computed, and one of bytes.
@h = global [6 x i16] [i16 10, i16 11, i16 12, i16 13, i16 14, i16 15], align 2
@i = global i32 4, align 4
@k = global i8 -128, align 1
declare void @out(i64)
define void @f() {
  %i = load i32, ptr @i, align 4
  %k = load i8, ptr @k, align 1
  %j = sub i32 %i, 1
  %m = add i8 %k, -127
  %v5 = getelementptr inbounds [6 x i16], ptr @h, i64 0, i64 5
  %v6 = load i16, ptr %v5, align 2
  %v7 = zext i16 %v6 to i64
  call void @out(i64 %v7)
  %v8 = getelementptr i16, ptr @h, i32 2
  %v9 = load i16, ptr %v8, align 2
  %v10 = zext i16 %v9 to i64
  call void @out(i64 %v10)
  %v11 = getelementptr inbounds [6 x i16], ptr @h, i64 0, i32 %i
  %v12 = load i16, ptr %v11, align 2
  %v13 = zext i16 %v12 to i64
  call void @out(i64 %v13)
  %v14 = getelementptr inbounds i16, ptr @h, i32 %j
  %v15 = load i16, ptr %v14, align 2
  %v16 = zext i16 %v15 to i64
  call void @out(i64 %v16)
  %v17 = getelementptr inbounds [6 x i16], ptr @h, i64 0, i8 %m
  %v18 = load i16, ptr %v17, align 2
  %v19 = zext i16 %v18 to i64
  call void @out(i64 %v19)
  %v20 = getelementptr i8, ptr @h, i64 8
  %v21 = load i16, ptr %v20, align 2
  %v22 = zext i16 %v21 to i64
  call void @out(i64 %v22)
  %v23 = getelementptr inbounds [6 x i16], ptr @h, i64 0, i32 %j
  store atomic i16 99, ptr %v23 seq_cst, align 2
  store i16 -1, ptr getelementptr inbounds ([6 x i16], ptr @h, i64 0, i32 1), align 2
  fence seq_cst
  ret void
}
