; Two additions in the form of clang, with names in quotes, attributes, metadata and carriage returns.
; ModuleID = 'two.c'
source_filename = "two.c"
target triple = "riscv64-unknown-linux-gnu"

@"x" = dso_local local_unnamed_addr global i64 0, align 8

; Function Attrs: nounwind
define dso_local void @f() local_unnamed_addr #0 {
  %1 = atomicrmw add ptr @x, i64 1 seq_cst, align 8, !tbaa !5
  tail call void @out(i64 noundef %1) #2
  %2 = atomicrmw volatile add ptr @x, i64 1 seq_cst, align 8 ; again
  call void @out(i64 noundef %2) #2
  ret void
}

declare void @out(i64 noundef) local_unnamed_addr #1

attributes #0 = { nounwind "frame-pointer"="all" }
!0 = !{i32 1, !"wchar_size", i32 4}
!5 = !{!0, i64 0}
