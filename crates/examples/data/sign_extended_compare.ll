; A word is compared as a number of 32 bits, though it is loaded extended by its sign.
@x = global i32 -2147483648, align 4
declare void @out(i64)
define void @f() {
  %1 = cmpxchg ptr @x, i32 -2147483648, i32 7 seq_cst seq_cst, align 4
  %2 = extractvalue { i32, i1 } %1, 1
  %3 = zext i1 %2 to i64
  call void @out(i64 %3)
  ret void
}
