; Each binary operation of i32 on -2 and the least number but one, whose results are cut to 32
; bits, and shifts by the least and the greatest amount.
@v = global [2 x i32] [i32 -2, i32 -2147483647], align 4
declare void @out(i64)
define void @f() {
  %a = load i32, ptr @v, align 4
  %b = load i32, ptr getelementptr inbounds ([2 x i32], ptr @v, i64 0, i64 1), align 4
  %v3 = add i32 %a, %b
  %v4 = zext i32 %v3 to i64
  call void @out(i64 %v4)
  %v5 = sub i32 %a, %b
  %v6 = zext i32 %v5 to i64
  call void @out(i64 %v6)
  %v7 = mul i32 %a, %b
  %v8 = zext i32 %v7 to i64
  call void @out(i64 %v8)
  %v9 = and i32 %a, %b
  %v10 = zext i32 %v9 to i64
  call void @out(i64 %v10)
  %v11 = or i32 %a, %b
  %v12 = zext i32 %v11 to i64
  call void @out(i64 %v12)
  %v13 = xor i32 %a, %b
  %v14 = zext i32 %v13 to i64
  call void @out(i64 %v14)
  %v15 = sub i32 %b, %a
  %v16 = zext i32 %v15 to i64
  call void @out(i64 %v16)
  %v17 = mul i32 %b, %b
  %v18 = zext i32 %v17 to i64
  call void @out(i64 %v18)
  %v19 = shl i32 %b, 0
  %v20 = zext i32 %v19 to i64
  call void @out(i64 %v20)
  %v21 = shl i32 %b, 1
  %v22 = zext i32 %v21 to i64
  call void @out(i64 %v22)
  %v23 = shl i32 %b, 31
  %v24 = zext i32 %v23 to i64
  call void @out(i64 %v24)
  %v25 = lshr i32 %b, 0
  %v26 = zext i32 %v25 to i64
  call void @out(i64 %v26)
  %v27 = lshr i32 %b, 1
  %v28 = zext i32 %v27 to i64
  call void @out(i64 %v28)
  %v29 = lshr i32 %b, 31
  %v30 = zext i32 %v29 to i64
  call void @out(i64 %v30)
  %v31 = ashr i32 %b, 0
  %v32 = zext i32 %v31 to i64
  call void @out(i64 %v32)
  %v33 = ashr i32 %b, 1
  %v34 = zext i32 %v33 to i64
  call void @out(i64 %v34)
  %v35 = ashr i32 %b, 31
  %v36 = zext i32 %v35 to i64
  call void @out(i64 %v36)
  ret void
}
