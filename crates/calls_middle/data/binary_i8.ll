; Each binary operation of i8 on -2 and the least number but one, whose results are cut to 8 bits,
; and shifts by the least and the greatest amount.
@v = global [2 x i8] [i8 -2, i8 -127], align 1
declare void @out(i64)
define void @f() {
  %a = load i8, ptr @v, align 1
  %b = load i8, ptr getelementptr inbounds ([2 x i8], ptr @v, i64 0, i64 1), align 1
  %v3 = add i8 %a, %b
  %v4 = zext i8 %v3 to i64
  call void @out(i64 %v4)
  %v5 = sub i8 %a, %b
  %v6 = zext i8 %v5 to i64
  call void @out(i64 %v6)
  %v7 = mul i8 %a, %b
  %v8 = zext i8 %v7 to i64
  call void @out(i64 %v8)
  %v9 = and i8 %a, %b
  %v10 = zext i8 %v9 to i64
  call void @out(i64 %v10)
  %v11 = or i8 %a, %b
  %v12 = zext i8 %v11 to i64
  call void @out(i64 %v12)
  %v13 = xor i8 %a, %b
  %v14 = zext i8 %v13 to i64
  call void @out(i64 %v14)
  %v15 = sub i8 %b, %a
  %v16 = zext i8 %v15 to i64
  call void @out(i64 %v16)
  %v17 = mul i8 %b, %b
  %v18 = zext i8 %v17 to i64
  call void @out(i64 %v18)
  %v19 = shl i8 %b, 0
  %v20 = zext i8 %v19 to i64
  call void @out(i64 %v20)
  %v21 = shl i8 %b, 1
  %v22 = zext i8 %v21 to i64
  call void @out(i64 %v22)
  %v23 = shl i8 %b, 7
  %v24 = zext i8 %v23 to i64
  call void @out(i64 %v24)
  %v25 = lshr i8 %b, 0
  %v26 = zext i8 %v25 to i64
  call void @out(i64 %v26)
  %v27 = lshr i8 %b, 1
  %v28 = zext i8 %v27 to i64
  call void @out(i64 %v28)
  %v29 = lshr i8 %b, 7
  %v30 = zext i8 %v29 to i64
  call void @out(i64 %v30)
  %v31 = ashr i8 %b, 0
  %v32 = zext i8 %v31 to i64
  call void @out(i64 %v32)
  %v33 = ashr i8 %b, 1
  %v34 = zext i8 %v33 to i64
  call void @out(i64 %v34)
  %v35 = ashr i8 %b, 7
  %v36 = zext i8 %v35 to i64
  call void @out(i64 %v36)
  ret void
}
