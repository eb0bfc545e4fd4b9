; Allocas of each width, alone and in arrays; each holds its own number, and a store to one leaves
; its neighbours.
declare void @out(i64)
define void @f() {
  %one8 = alloca i8, align 1
  %one16 = alloca i16, align 2
  %one32 = alloca i32, align 4
  %one64 = alloca i64, align 8
  %one128 = alloca i128, align 16
  %three8 = alloca [3 x i8], align 1
  %three16 = alloca [3 x i16], align 2
  %three32 = alloca [3 x i32], align 4
  %three64 = alloca [3 x i64], align 8
  %three128 = alloca [3 x i128], align 16
  store i8 -9, ptr %one8, align 1
  store i16 -17, ptr %one16, align 2
  store i32 -33, ptr %one32, align 4
  store i64 -65, ptr %one64, align 8
  store i128 -129, ptr %one128, align 16
  %p8_0 = getelementptr inbounds [3 x i8], ptr %three8, i64 0, i64 0
  store i8 1, ptr %p8_0, align 1
  %p8_1 = getelementptr inbounds [3 x i8], ptr %three8, i64 0, i64 1
  store i8 11, ptr %p8_1, align 1
  %p8_2 = getelementptr inbounds [3 x i8], ptr %three8, i64 0, i64 2
  store i8 21, ptr %p8_2, align 1
  %p16_0 = getelementptr inbounds [3 x i16], ptr %three16, i64 0, i64 0
  store i16 1, ptr %p16_0, align 2
  %p16_1 = getelementptr inbounds [3 x i16], ptr %three16, i64 0, i64 1
  store i16 11, ptr %p16_1, align 2
  %p16_2 = getelementptr inbounds [3 x i16], ptr %three16, i64 0, i64 2
  store i16 21, ptr %p16_2, align 2
  %p32_0 = getelementptr inbounds [3 x i32], ptr %three32, i64 0, i64 0
  store i32 1, ptr %p32_0, align 4
  %p32_1 = getelementptr inbounds [3 x i32], ptr %three32, i64 0, i64 1
  store i32 11, ptr %p32_1, align 4
  %p32_2 = getelementptr inbounds [3 x i32], ptr %three32, i64 0, i64 2
  store i32 21, ptr %p32_2, align 4
  %p64_0 = getelementptr inbounds [3 x i64], ptr %three64, i64 0, i64 0
  store i64 1, ptr %p64_0, align 8
  %p64_1 = getelementptr inbounds [3 x i64], ptr %three64, i64 0, i64 1
  store i64 11, ptr %p64_1, align 8
  %p64_2 = getelementptr inbounds [3 x i64], ptr %three64, i64 0, i64 2
  store i64 21, ptr %p64_2, align 8
  %p128_0 = getelementptr inbounds [3 x i128], ptr %three128, i64 0, i64 0
  store i128 1, ptr %p128_0, align 16
  %p128_1 = getelementptr inbounds [3 x i128], ptr %three128, i64 0, i64 1
  store i128 11, ptr %p128_1, align 16
  %p128_2 = getelementptr inbounds [3 x i128], ptr %three128, i64 0, i64 2
  store i128 21, ptr %p128_2, align 16
  store i8 -1, ptr %p8_1, align 1
  store i16 -1, ptr %p16_1, align 2
  store i32 -1, ptr %p32_1, align 4
  store i64 -1, ptr %p64_1, align 8
  store i128 -1, ptr %p128_1, align 16
  %v26 = load i8, ptr %one8, align 1
  %v27 = zext i8 %v26 to i64
  call void @out(i64 %v27)
  %v28 = load i8, ptr %p8_0, align 1
  %v29 = zext i8 %v28 to i64
  call void @out(i64 %v29)
  %v30 = load i8, ptr %p8_1, align 1
  %v31 = zext i8 %v30 to i64
  call void @out(i64 %v31)
  %v32 = load i8, ptr %p8_2, align 1
  %v33 = zext i8 %v32 to i64
  call void @out(i64 %v33)
  %v34 = load i16, ptr %one16, align 2
  %v35 = zext i16 %v34 to i64
  call void @out(i64 %v35)
  %v36 = load i16, ptr %p16_0, align 2
  %v37 = zext i16 %v36 to i64
  call void @out(i64 %v37)
  %v38 = load i16, ptr %p16_1, align 2
  %v39 = zext i16 %v38 to i64
  call void @out(i64 %v39)
  %v40 = load i16, ptr %p16_2, align 2
  %v41 = zext i16 %v40 to i64
  call void @out(i64 %v41)
  %v42 = load i32, ptr %one32, align 4
  %v43 = zext i32 %v42 to i64
  call void @out(i64 %v43)
  %v44 = load i32, ptr %p32_0, align 4
  %v45 = zext i32 %v44 to i64
  call void @out(i64 %v45)
  %v46 = load i32, ptr %p32_1, align 4
  %v47 = zext i32 %v46 to i64
  call void @out(i64 %v47)
  %v48 = load i32, ptr %p32_2, align 4
  %v49 = zext i32 %v48 to i64
  call void @out(i64 %v49)
  %v50 = load i64, ptr %one64, align 8
  call void @out(i64 %v50)
  %v51 = load i64, ptr %p64_0, align 8
  call void @out(i64 %v51)
  %v52 = load i64, ptr %p64_1, align 8
  call void @out(i64 %v52)
  %v53 = load i64, ptr %p64_2, align 8
  call void @out(i64 %v53)
  %v54 = load i128, ptr %one128, align 16
  %v55 = trunc i128 %v54 to i64
  call void @out(i64 %v55)
  %v56 = load i128, ptr %p128_0, align 16
  %v57 = trunc i128 %v56 to i64
  call void @out(i64 %v57)
  %v58 = load i128, ptr %p128_1, align 16
  %v59 = trunc i128 %v58 to i64
  call void @out(i64 %v59)
  %v60 = load i128, ptr %p128_2, align 16
  %v61 = trunc i128 %v60 to i64
  call void @out(i64 %v61)
  %v62 = load i128, ptr %p128_1, align 16
  %v63 = lshr i128 %v62, 64
  %v64 = trunc i128 %v63 to i64
  call void @out(i64 %v64)
  ret void
}
