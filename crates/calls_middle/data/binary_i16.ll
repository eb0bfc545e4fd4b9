; Each binary operation of i16 on -2 and the least number but one, whose results are cut to 16
; bits, and shifts by the least and the greatest amount.
@v = global [2 x i16] [i16 -2, i16 -32767], align 2
declare void @out(i64)
define void @f() {
  %a = load i16, ptr @v, align 2
  %b = load i16, ptr getelementptr inbounds ([2 x i16], ptr @v, i64 0, i64 1), align 2
  %v3 = add i16 %a, %b
  %v4 = zext i16 %v3 to i64
  call void @out(i64 %v4)
  %v5 = sub i16 %a, %b
  %v6 = zext i16 %v5 to i64
  call void @out(i64 %v6)
  %v7 = mul i16 %a, %b
  %v8 = zext i16 %v7 to i64
  call void @out(i64 %v8)
  %v9 = and i16 %a, %b
  %v10 = zext i16 %v9 to i64
  call void @out(i64 %v10)
  %v11 = or i16 %a, %b
  %v12 = zext i16 %v11 to i64
  call void @out(i64 %v12)
  %v13 = xor i16 %a, %b
  %v14 = zext i16 %v13 to i64
  call void @out(i64 %v14)
  %v15 = sub i16 %b, %a
  %v16 = zext i16 %v15 to i64
  call void @out(i64 %v16)
  %v17 = mul i16 %b, %b
  %v18 = zext i16 %v17 to i64
  call void @out(i64 %v18)
  %v19 = shl i16 %b, 0
  %v20 = zext i16 %v19 to i64
  call void @out(i64 %v20)
  %v21 = shl i16 %b, 1
  %v22 = zext i16 %v21 to i64
  call void @out(i64 %v22)
  %v23 = shl i16 %b, 15
  %v24 = zext i16 %v23 to i64
  call void @out(i64 %v24)
  %v25 = lshr i16 %b, 0
  %v26 = zext i16 %v25 to i64
  call void @out(i64 %v26)
  %v27 = lshr i16 %b, 1
  %v28 = zext i16 %v27 to i64
  call void @out(i64 %v28)
  %v29 = lshr i16 %b, 15
  %v30 = zext i16 %v29 to i64
  call void @out(i64 %v30)
  %v31 = ashr i16 %b, 0
  %v32 = zext i16 %v31 to i64
  call void @out(i64 %v32)
  %v33 = ashr i16 %b, 1
  %v34 = zext i16 %v33 to i64
  call void @out(i64 %v34)
  %v35 = ashr i16 %b, 15
  %v36 = zext i16 %v35 to i64
  call void @out(i64 %v36)
  ret void
}
