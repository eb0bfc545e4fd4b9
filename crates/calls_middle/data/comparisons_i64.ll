; Each comparison of i64: of the least number, which is a sum past the greatest, with the
; greatest, and with itself; and of a sum that is 0 once it is cut to 64 bits.
@v = global i64 9223372036854775807, align 8
declare void @out(i64)
define void @f() {
  %greatest = load i64, ptr @v, align 8
  %least = add i64 %greatest, 1
  %zero = add i64 %least, %least
  %v4 = icmp eq i64 %least, %greatest
  %v5 = zext i1 %v4 to i64
  call void @out(i64 %v5)
  %v6 = icmp ne i64 %least, %greatest
  %v7 = zext i1 %v6 to i64
  call void @out(i64 %v7)
  %v8 = icmp ugt i64 %least, %greatest
  %v9 = zext i1 %v8 to i64
  call void @out(i64 %v9)
  %v10 = icmp uge i64 %least, %greatest
  %v11 = zext i1 %v10 to i64
  call void @out(i64 %v11)
  %v12 = icmp ult i64 %least, %greatest
  %v13 = zext i1 %v12 to i64
  call void @out(i64 %v13)
  %v14 = icmp ule i64 %least, %greatest
  %v15 = zext i1 %v14 to i64
  call void @out(i64 %v15)
  %v16 = icmp sgt i64 %least, %greatest
  %v17 = zext i1 %v16 to i64
  call void @out(i64 %v17)
  %v18 = icmp sge i64 %least, %greatest
  %v19 = zext i1 %v18 to i64
  call void @out(i64 %v19)
  %v20 = icmp slt i64 %least, %greatest
  %v21 = zext i1 %v20 to i64
  call void @out(i64 %v21)
  %v22 = icmp sle i64 %least, %greatest
  %v23 = zext i1 %v22 to i64
  call void @out(i64 %v23)
  %v24 = icmp eq i64 %least, %least
  %v25 = zext i1 %v24 to i64
  call void @out(i64 %v25)
  %v26 = icmp ne i64 %least, %least
  %v27 = zext i1 %v26 to i64
  call void @out(i64 %v27)
  %v28 = icmp ugt i64 %least, %least
  %v29 = zext i1 %v28 to i64
  call void @out(i64 %v29)
  %v30 = icmp uge i64 %least, %least
  %v31 = zext i1 %v30 to i64
  call void @out(i64 %v31)
  %v32 = icmp ult i64 %least, %least
  %v33 = zext i1 %v32 to i64
  call void @out(i64 %v33)
  %v34 = icmp ule i64 %least, %least
  %v35 = zext i1 %v34 to i64
  call void @out(i64 %v35)
  %v36 = icmp sgt i64 %least, %least
  %v37 = zext i1 %v36 to i64
  call void @out(i64 %v37)
  %v38 = icmp sge i64 %least, %least
  %v39 = zext i1 %v38 to i64
  call void @out(i64 %v39)
  %v40 = icmp slt i64 %least, %least
  %v41 = zext i1 %v40 to i64
  call void @out(i64 %v41)
  %v42 = icmp sle i64 %least, %least
  %v43 = zext i1 %v42 to i64
  call void @out(i64 %v43)
  %v44 = icmp eq i64 %zero, 0
  %v45 = zext i1 %v44 to i64
  call void @out(i64 %v45)
  %v46 = icmp ult i64 %zero, 1
  %v47 = zext i1 %v46 to i64
  call void @out(i64 %v47)
  %v48 = icmp sgt i64 %zero, -1
  %v49 = zext i1 %v48 to i64
  call void @out(i64 %v49)
  %v50 = icmp slt i64 %zero, %least
  %v51 = zext i1 %v50 to i64
  call void @out(i64 %v51)
  ret void
}
