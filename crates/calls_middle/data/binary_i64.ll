; Each binary operation of i64 on -2 and the least number but one, whose results are cut to 64
; bits, and shifts by the least and the greatest amount.
@v = global [2 x i64] [i64 -2, i64 -9223372036854775807], align 8
declare void @out(i64)
define void @f() {
  %a = load i64, ptr @v, align 8
  %b = load i64, ptr getelementptr inbounds ([2 x i64], ptr @v, i64 0, i64 1), align 8
  %v3 = add i64 %a, %b
  call void @out(i64 %v3)
  %v4 = sub i64 %a, %b
  call void @out(i64 %v4)
  %v5 = mul i64 %a, %b
  call void @out(i64 %v5)
  %v6 = and i64 %a, %b
  call void @out(i64 %v6)
  %v7 = or i64 %a, %b
  call void @out(i64 %v7)
  %v8 = xor i64 %a, %b
  call void @out(i64 %v8)
  %v9 = sub i64 %b, %a
  call void @out(i64 %v9)
  %v10 = mul i64 %b, %b
  call void @out(i64 %v10)
  %v11 = shl i64 %b, 0
  call void @out(i64 %v11)
  %v12 = shl i64 %b, 1
  call void @out(i64 %v12)
  %v13 = shl i64 %b, 63
  call void @out(i64 %v13)
  %v14 = lshr i64 %b, 0
  call void @out(i64 %v14)
  %v15 = lshr i64 %b, 1
  call void @out(i64 %v15)
  %v16 = lshr i64 %b, 63
  call void @out(i64 %v16)
  %v17 = ashr i64 %b, 0
  call void @out(i64 %v17)
  %v18 = ashr i64 %b, 1
  call void @out(i64 %v18)
  %v19 = ashr i64 %b, 63
  call void @out(i64 %v19)
  ret void
}
