; Ticket lock, in the form of clang at -O1.
; ModuleID = 'ticket.c'
source_filename = "ticket.c"
target datalayout = "e-m:e-i64:64-i128:128-n32:64-S128"

@next = dso_local global i32 0, align 4
@serving = dso_local global i32 0, align 4
@count = dso_local local_unnamed_addr global i64 0, align 8

; Function Attrs: nounwind
define dso_local void @worker() local_unnamed_addr #0 {
  %1 = atomicrmw add ptr @next, i32 1 monotonic, align 4
  br label %2

2:                                ; preds = %2, %0
  %3 = load atomic i32, ptr @serving acquire, align 4
  %4 = icmp eq i32 %3, %1
  br i1 %4, label %5, label %2, !llvm.loop !3

5:                                ; preds = %2
  %6 = load i64, ptr @count, align 8, !tbaa !5
  tail call void @out(i64 noundef %6) #2
  %7 = add nsw i64 %6, 1
  store i64 %7, ptr @count, align 8, !tbaa !5
  %8 = add i32 %1, 1
  store atomic i32 %8, ptr @serving release, align 4
  ret void
}

declare void @out(i64 noundef) local_unnamed_addr #1

attributes #0 = { nounwind "frame-pointer"="all" }
attributes #1 = { "frame-pointer"="all" }
attributes #2 = { nounwind }
!llvm.module.flags = !{!0}
!0 = !{i32 1, !"wchar_size", i32 4}
!3 = distinct !{!3, !4}
!4 = !{!"llvm.loop.mustprogress"}
!5 = !{!6, !6, i64 0}
!6 = !{!"long", !7, i64 0}
!7 = !{!"omnipotent char", !8, i64 0}
!8 = !{!"Simple C/C++ TBAA"}
