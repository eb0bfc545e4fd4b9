; Parts of the pairs of compare-exchanges of i64, of which the first stores and the second does
; not; then one that expects a cut number.
@x = global i64 -3, align 8
declare void @out(i64)
define void @f() {
  %v1 = cmpxchg ptr @x, i64 -3, i64 7 acq_rel monotonic, align 8
  %v2 = extractvalue { i64, i1 } %v1, 0
  call void @out(i64 %v2)
  %v3 = extractvalue { i64, i1 } %v1, 1
  %v4 = zext i1 %v3 to i64
  call void @out(i64 %v4)
  %v5 = cmpxchg ptr @x, i64 -3, i64 9 acq_rel monotonic, align 8
  %v6 = extractvalue { i64, i1 } %v5, 0
  call void @out(i64 %v6)
  %v7 = extractvalue { i64, i1 } %v5, 1
  %v8 = zext i1 %v7 to i64
  call void @out(i64 %v8)
  %v9 = add i64 7, -7
  %v10 = add i64 %v9, 7
  %v11 = cmpxchg ptr @x, i64 %v10, i64 -1 seq_cst seq_cst, align 8
  %v12 = extractvalue { i64, i1 } %v11, 1
  %v13 = zext i1 %v12 to i64
  call void @out(i64 %v13)
  ret void
}
