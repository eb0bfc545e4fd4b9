; Numbers of 128 bits: a sum that carries and one that wraps, differences that borrow, bits,
; shifts by 64, comparisons, a select and casts.
@q = global [2 x i128] [i128 110680464442257309695, i128 170141183460469231860814512231850967042], align 16
declare void @out(i64)
define void @f() {
  %a = load atomic i128, ptr @q monotonic, align 16
  %b = load atomic i128, ptr getelementptr inbounds ([2 x i128], ptr @q, i64 0, i64 1) monotonic, align 16
  %v3 = add i128 %a, %b
  %v4 = trunc i128 %v3 to i64
  call void @out(i64 %v4)
  %v5 = lshr i128 %v3, 64
  %v6 = trunc i128 %v5 to i64
  call void @out(i64 %v6)
  %v7 = add i128 %b, %b
  %v8 = trunc i128 %v7 to i64
  call void @out(i64 %v8)
  %v9 = lshr i128 %v7, 64
  %v10 = trunc i128 %v9 to i64
  call void @out(i64 %v10)
  %v11 = sub i128 %b, %a
  %v12 = trunc i128 %v11 to i64
  call void @out(i64 %v12)
  %v13 = lshr i128 %v11, 64
  %v14 = trunc i128 %v13 to i64
  call void @out(i64 %v14)
  %v15 = sub i128 %a, %b
  %v16 = trunc i128 %v15 to i64
  call void @out(i64 %v16)
  %v17 = lshr i128 %v15, 64
  %v18 = trunc i128 %v17 to i64
  call void @out(i64 %v18)
  %v19 = sub i128 %a, %a
  %v20 = trunc i128 %v19 to i64
  call void @out(i64 %v20)
  %v21 = lshr i128 %v19, 64
  %v22 = trunc i128 %v21 to i64
  call void @out(i64 %v22)
  %v23 = and i128 %a, %b
  %v24 = trunc i128 %v23 to i64
  call void @out(i64 %v24)
  %v25 = lshr i128 %v23, 64
  %v26 = trunc i128 %v25 to i64
  call void @out(i64 %v26)
  %v27 = or i128 %a, %b
  %v28 = trunc i128 %v27 to i64
  call void @out(i64 %v28)
  %v29 = lshr i128 %v27, 64
  %v30 = trunc i128 %v29 to i64
  call void @out(i64 %v30)
  %v31 = xor i128 %a, %b
  %v32 = trunc i128 %v31 to i64
  call void @out(i64 %v32)
  %v33 = lshr i128 %v31, 64
  %v34 = trunc i128 %v33 to i64
  call void @out(i64 %v34)
  %v35 = shl i128 %a, 64
  %v36 = trunc i128 %v35 to i64
  call void @out(i64 %v36)
  %v37 = lshr i128 %v35, 64
  %v38 = trunc i128 %v37 to i64
  call void @out(i64 %v38)
  %v39 = lshr i128 %b, 64
  %v40 = trunc i128 %v39 to i64
  call void @out(i64 %v40)
  %v41 = lshr i128 %v39, 64
  %v42 = trunc i128 %v41 to i64
  call void @out(i64 %v42)
  %v43 = ashr i128 %b, 64
  %v44 = trunc i128 %v43 to i64
  call void @out(i64 %v44)
  %v45 = lshr i128 %v43, 64
  %v46 = trunc i128 %v45 to i64
  call void @out(i64 %v46)
  %v47 = add i128 %a, -1
  %v48 = trunc i128 %v47 to i64
  call void @out(i64 %v48)
  %v49 = lshr i128 %v47, 64
  %v50 = trunc i128 %v49 to i64
  call void @out(i64 %v50)
  %v51 = add i128 %a, 340282366920938463463374607431768211455
  %v52 = trunc i128 %v51 to i64
  call void @out(i64 %v52)
  %v53 = lshr i128 %v51, 64
  %v54 = trunc i128 %v53 to i64
  call void @out(i64 %v54)
  %next = add i128 %a, 1
  %again = sub i128 %next, 1
  %high = xor i128 %a, 18446744073709551616
  %v58 = icmp eq i128 %a, %again
  %v59 = icmp ne i128 %a, %again
  %v60 = icmp eq i128 %a, %next
  %v61 = icmp eq i128 %a, %high
  %v62 = icmp ne i128 %a, %high
  %v63 = zext i1 %v58 to i64
  call void @out(i64 %v63)
  %v64 = zext i1 %v59 to i64
  call void @out(i64 %v64)
  %v65 = zext i1 %v60 to i64
  call void @out(i64 %v65)
  %v66 = zext i1 %v61 to i64
  call void @out(i64 %v66)
  %v67 = zext i1 %v62 to i64
  call void @out(i64 %v67)
  %v68 = select i1 %v58, i128 %a, i128 %b
  %v69 = trunc i128 %v68 to i64
  call void @out(i64 %v69)
  %v70 = lshr i128 %v68, 64
  %v71 = trunc i128 %v70 to i64
  call void @out(i64 %v71)
  %v72 = select i1 %v59, i128 %a, i128 %b
  %v73 = trunc i128 %v72 to i64
  call void @out(i64 %v73)
  %v74 = lshr i128 %v72, 64
  %v75 = trunc i128 %v74 to i64
  call void @out(i64 %v75)
  %v76 = lshr i128 %b, 64
  %top = trunc i128 %v76 to i64
  %v78 = zext i64 %top to i128
  %v79 = trunc i128 %v78 to i64
  call void @out(i64 %v79)
  %v80 = lshr i128 %v78, 64
  %v81 = trunc i128 %v80 to i64
  call void @out(i64 %v81)
  %byte = trunc i128 %a to i8
  %v83 = zext i8 %byte to i128
  %v84 = trunc i128 %v83 to i64
  call void @out(i64 %v84)
  %v85 = lshr i128 %v83, 64
  %v86 = trunc i128 %v85 to i64
  call void @out(i64 %v86)
  %v87 = zext i8 %byte to i64
  call void @out(i64 %v87)
  ret void
}
