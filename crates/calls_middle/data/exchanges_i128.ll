; Parts of the pairs of compare-exchanges of i128, of which the first stores and the second does
; not; then one that expects a cut number.
@x = global i128 340282366920938463463374607431768211453, align 16
declare void @out(i64)
define void @f() {
  %v1 = cmpxchg ptr @x, i128 -3, i128 7 acq_rel monotonic, align 16
  %v2 = extractvalue { i128, i1 } %v1, 0
  %v3 = trunc i128 %v2 to i64
  call void @out(i64 %v3)
  %v4 = extractvalue { i128, i1 } %v1, 1
  %v5 = zext i1 %v4 to i64
  call void @out(i64 %v5)
  %v6 = cmpxchg ptr @x, i128 -3, i128 9 acq_rel monotonic, align 16
  %v7 = extractvalue { i128, i1 } %v6, 0
  %v8 = trunc i128 %v7 to i64
  call void @out(i64 %v8)
  %v9 = extractvalue { i128, i1 } %v6, 1
  %v10 = zext i1 %v9 to i64
  call void @out(i64 %v10)
  %v11 = add i128 7, -7
  %v12 = add i128 %v11, 7
  %v13 = cmpxchg ptr @x, i128 %v12, i128 -1 seq_cst seq_cst, align 16
  %v14 = extractvalue { i128, i1 } %v13, 1
  %v15 = zext i1 %v14 to i64
  call void @out(i64 %v15)
  ret void
}
