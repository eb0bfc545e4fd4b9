; Operations and comparisons of one bit, of which 1 is -1 with signs, and choices of each width.
@b = global i8 200, align 1
declare void @out(i64)
define void @f() {
  %b = load i8, ptr @b, align 1
  %yes = icmp ugt i8 %b, 199
  %no = icmp sgt i8 %b, 100
  %v4 = xor i1 %yes, true
  %v5 = zext i1 %v4 to i64
  call void @out(i64 %v5)
  %v6 = xor i1 %no, true
  %v7 = zext i1 %v6 to i64
  call void @out(i64 %v7)
  %v8 = and i1 %yes, %no
  %v9 = zext i1 %v8 to i64
  call void @out(i64 %v9)
  %v10 = or i1 %yes, %no
  %v11 = zext i1 %v10 to i64
  call void @out(i64 %v11)
  %v12 = add i1 %yes, %yes
  %v13 = zext i1 %v12 to i64
  call void @out(i64 %v13)
  %v14 = add i1 %yes, %no
  %v15 = zext i1 %v14 to i64
  call void @out(i64 %v15)
  %v16 = sub i1 %no, %yes
  %v17 = zext i1 %v16 to i64
  call void @out(i64 %v17)
  %v18 = icmp slt i1 %yes, %no
  %v19 = zext i1 %v18 to i64
  call void @out(i64 %v19)
  %v20 = icmp ult i1 %yes, %no
  %v21 = zext i1 %v20 to i64
  call void @out(i64 %v21)
  %v22 = icmp sge i1 %yes, 0
  %v23 = zext i1 %v22 to i64
  call void @out(i64 %v23)
  %v24 = icmp eq i1 %yes, 1
  %v25 = zext i1 %v24 to i64
  call void @out(i64 %v25)
  %v26 = select i1 %no, i1 %no, i1 %yes
  %v27 = zext i1 %v26 to i64
  call void @out(i64 %v27)
  %v28 = sub i8 0, 8
  %v29 = select i1 %yes, i8 %v28, i8 1
  %v30 = zext i8 %v29 to i64
  call void @out(i64 %v30)
  %v31 = select i1 %no, i8 %v28, i8 1
  %v32 = zext i8 %v31 to i64
  call void @out(i64 %v32)
  %v33 = sub i16 0, 16
  %v34 = select i1 %yes, i16 %v33, i16 1
  %v35 = zext i16 %v34 to i64
  call void @out(i64 %v35)
  %v36 = select i1 %no, i16 %v33, i16 1
  %v37 = zext i16 %v36 to i64
  call void @out(i64 %v37)
  %v38 = sub i32 0, 32
  %v39 = select i1 %yes, i32 %v38, i32 1
  %v40 = zext i32 %v39 to i64
  call void @out(i64 %v40)
  %v41 = select i1 %no, i32 %v38, i32 1
  %v42 = zext i32 %v41 to i64
  call void @out(i64 %v42)
  %v43 = sub i64 0, 64
  %v44 = select i1 %yes, i64 %v43, i64 1
  call void @out(i64 %v44)
  %v45 = select i1 %no, i64 %v43, i64 1
  call void @out(i64 %v45)
  ret void
}
