; Each cast from each width, of numbers whose highest bit is set.
@b = global i8 200, align 1
@h = global i16 -2, align 2
@w = global i32 -2147483648, align 4
@d = global i64 -9114578090645354616, align 8
declare void @out(i64)
define void @f() {
  %b = load i8, ptr @b, align 1
  %h = load i16, ptr @h, align 2
  %w = load i32, ptr @w, align 4
  %d = load i64, ptr @d, align 8
  %v5 = zext i8 %b to i16
  %v6 = zext i16 %v5 to i64
  call void @out(i64 %v6)
  %v7 = sext i8 %b to i16
  %v8 = zext i16 %v7 to i64
  call void @out(i64 %v8)
  %v9 = zext i8 %b to i32
  %v10 = zext i32 %v9 to i64
  call void @out(i64 %v10)
  %v11 = sext i8 %b to i32
  %v12 = zext i32 %v11 to i64
  call void @out(i64 %v12)
  %v13 = zext i8 %b to i64
  call void @out(i64 %v13)
  %v14 = sext i8 %b to i64
  call void @out(i64 %v14)
  %v15 = zext i16 %h to i32
  %v16 = zext i32 %v15 to i64
  call void @out(i64 %v16)
  %v17 = sext i16 %h to i32
  %v18 = zext i32 %v17 to i64
  call void @out(i64 %v18)
  %v19 = zext i16 %h to i64
  call void @out(i64 %v19)
  %v20 = sext i16 %h to i64
  call void @out(i64 %v20)
  %v21 = zext i32 %w to i64
  call void @out(i64 %v21)
  %v22 = sext i32 %w to i64
  call void @out(i64 %v22)
  %v23 = trunc i16 %h to i8
  %v24 = zext i8 %v23 to i64
  call void @out(i64 %v24)
  %v25 = sext i8 %v23 to i64
  call void @out(i64 %v25)
  %v26 = trunc i32 %w to i8
  %v27 = zext i8 %v26 to i64
  call void @out(i64 %v27)
  %v28 = sext i8 %v26 to i64
  call void @out(i64 %v28)
  %v29 = trunc i32 %w to i16
  %v30 = zext i16 %v29 to i64
  call void @out(i64 %v30)
  %v31 = sext i16 %v29 to i64
  call void @out(i64 %v31)
  %v32 = trunc i64 %d to i8
  %v33 = zext i8 %v32 to i64
  call void @out(i64 %v33)
  %v34 = sext i8 %v32 to i64
  call void @out(i64 %v34)
  %v35 = trunc i64 %d to i16
  %v36 = zext i16 %v35 to i64
  call void @out(i64 %v36)
  %v37 = sext i16 %v35 to i64
  call void @out(i64 %v37)
  %v38 = trunc i64 %d to i32
  %v39 = zext i32 %v38 to i64
  call void @out(i64 %v39)
  %v40 = sext i32 %v38 to i64
  call void @out(i64 %v40)
  %yes = icmp ugt i8 %b, 199
  %no = icmp sgt i8 %b, 100
  %v43 = zext i1 %yes to i8
  %v44 = zext i8 %v43 to i64
  call void @out(i64 %v44)
  %v45 = sext i1 %yes to i8
  %v46 = zext i8 %v45 to i64
  call void @out(i64 %v46)
  %v47 = zext i1 %yes to i16
  %v48 = zext i16 %v47 to i64
  call void @out(i64 %v48)
  %v49 = sext i1 %yes to i16
  %v50 = zext i16 %v49 to i64
  call void @out(i64 %v50)
  %v51 = zext i1 %yes to i32
  %v52 = zext i32 %v51 to i64
  call void @out(i64 %v52)
  %v53 = sext i1 %yes to i32
  %v54 = zext i32 %v53 to i64
  call void @out(i64 %v54)
  %v55 = zext i1 %yes to i64
  call void @out(i64 %v55)
  %v56 = sext i1 %yes to i64
  call void @out(i64 %v56)
  %v57 = zext i1 %no to i8
  %v58 = zext i8 %v57 to i64
  call void @out(i64 %v58)
  %v59 = sext i1 %no to i8
  %v60 = zext i8 %v59 to i64
  call void @out(i64 %v60)
  %v61 = zext i1 %no to i16
  %v62 = zext i16 %v61 to i64
  call void @out(i64 %v62)
  %v63 = sext i1 %no to i16
  %v64 = zext i16 %v63 to i64
  call void @out(i64 %v64)
  %v65 = zext i1 %no to i32
  %v66 = zext i32 %v65 to i64
  call void @out(i64 %v66)
  %v67 = sext i1 %no to i32
  %v68 = zext i32 %v67 to i64
  call void @out(i64 %v68)
  %v69 = zext i1 %no to i64
  call void @out(i64 %v69)
  %v70 = sext i1 %no to i64
  call void @out(i64 %v70)
  %v71 = trunc i8 %b to i1
  %v72 = zext i1 %v71 to i64
  call void @out(i64 %v72)
  %v73 = trunc i16 %h to i1
  %v74 = zext i1 %v73 to i64
  call void @out(i64 %v74)
  %v75 = trunc i32 %w to i1
  %v76 = zext i1 %v75 to i64
  call void @out(i64 %v76)
  %v77 = trunc i64 %d to i1
  %v78 = zext i1 %v77 to i64
  call void @out(i64 %v78)
  ret void
}
