; A spin lock by a weak compare-exchange, in the form of clang at -O1.
@lock = dso_local global i32 0, align 4
@count = dso_local local_unnamed_addr global i64 0, align 8

define dso_local void @worker() local_unnamed_addr {
  br label %1

1:                                ; preds = %1, %0
  %2 = cmpxchg weak ptr @lock, i32 0, i32 1 acquire monotonic, align 4
  %3 = extractvalue { i32, i1 } %2, 1
  br i1 %3, label %4, label %1

4:                                ; preds = %1
  %5 = load i64, ptr @count, align 8
  tail call void @out(i64 noundef %5)
  %6 = add nsw i64 %5, 1
  store i64 %6, ptr @count, align 8
  store atomic i32 0, ptr @lock release, align 4
  ret void
}

declare void @out(i64 noundef) local_unnamed_addr
