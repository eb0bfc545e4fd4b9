; Atomics of the types _Bool, char and short, as clang writes them.
; ModuleID = 'types.c'
source_filename = "types.c"
target datalayout = "e-m:e-p:64:64-i64:64-i128:128-n64-S128"
target triple = "riscv64-unknown-linux-gnu"

@ready = dso_local global i8 0, align 1
@c = dso_local global i8 65, align 1
@s = dso_local global i16 -32768, align 2

; Function Attrs: nounwind
define dso_local void @set_ready() local_unnamed_addr #0 {
  %1 = atomicrmw xchg ptr @ready, i8 1 seq_cst, align 1
  %2 = and i8 %1, 1
  %3 = zext i8 %2 to i64
  call void @out(i64 noundef %3) #2
  ret void
}

declare void @out(i64 noundef) local_unnamed_addr #1

; Function Attrs: nounwind
define dso_local void @take_ready() local_unnamed_addr #0 {
  %1 = cmpxchg ptr @ready, i8 1, i8 0 seq_cst seq_cst, align 1
  %2 = extractvalue { i8, i1 } %1, 1
  %3 = extractvalue { i8, i1 } %1, 0
  %4 = and i8 %3, 1
  %5 = zext i8 %4 to i64
  %6 = select i1 %2, i64 1, i64 %5
  %7 = zext i1 %2 to i64
  call void @out(i64 noundef %7) #2
  call void @out(i64 noundef %6) #2
  ret void
}

; Function Attrs: nounwind
define dso_local void @next_char() local_unnamed_addr #0 {
  %1 = atomicrmw add ptr @c, i8 1 seq_cst, align 1
  %2 = zext i8 %1 to i64
  call void @out(i64 noundef %2) #2
  ret void
}

; Function Attrs: nounwind
define dso_local void @upper() local_unnamed_addr #0 {
  %1 = cmpxchg weak ptr @c, i8 66, i8 90 acq_rel monotonic, align 1
  %2 = extractvalue { i8, i1 } %1, 1
  %3 = zext i1 %2 to i64
  call void @out(i64 noundef %3) #2
  ret void
}

; Function Attrs: nounwind
define dso_local void @lower() local_unnamed_addr #0 {
  %1 = atomicrmw sub ptr @s, i16 1 monotonic, align 2
  %2 = zext i16 %1 to i64
  call void @out(i64 noundef %2) #2
  ret void
}

; Function Attrs: nounwind
define dso_local void @bits() local_unnamed_addr #0 {
  %1 = atomicrmw or ptr @s, i16 3 seq_cst, align 2
  %2 = zext i16 %1 to i64
  call void @out(i64 noundef %2) #2
  %3 = atomicrmw xor ptr @s, i16 255 release, align 2
  %4 = zext i16 %3 to i64
  call void @out(i64 noundef %4) #2
  ret void
}

; Function Attrs: nounwind
define dso_local void @read_bits() local_unnamed_addr #0 {
  %1 = load atomic i16, ptr @s acquire, align 2
  %2 = zext i16 %1 to i64
  call void @out(i64 noundef %2) #2
  ret void
}

attributes #0 = { nounwind "frame-pointer"="none" "min-legal-vector-width"="0" "no-builtins" "no-trapping-math"="true" "stack-protector-buffer-size"="8" "target-features"="+64bit,+a,+c,+d,+f,+m" }
attributes #1 = { "frame-pointer"="none" "no-builtins" "no-trapping-math"="true" "stack-protector-buffer-size"="8" "target-features"="+64bit,+a,+c,+d,+f,+m" }
attributes #2 = { nobuiltin nounwind "no-builtins" }

!llvm.module.flags = !{!0, !1, !2, !3, !4}
!llvm.ident = !{!5}

!0 = !{i32 1, !"wchar_size", i32 4}
!1 = !{i32 1, !"target-abi", !"lp64d"}
!2 = !{i32 7, !"PIC Level", i32 2}
!3 = !{i32 7, !"PIE Level", i32 2}
!4 = !{i32 1, !"SmallDataLimit", i32 8}
!5 = !{!"Debian clang version 14.0.6"}
