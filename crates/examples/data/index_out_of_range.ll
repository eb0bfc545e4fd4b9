; Index out of range: a store past the last element is a trap, which ends its processor alone.
@h = global [4 x i16] zeroinitializer, align 2
@i = global i64 4, align 8
define void @a() {
  %1 = load atomic i64, ptr @i seq_cst, align 8
  %2 = getelementptr inbounds [4 x i16], ptr @h, i64 0, i64 %1
  store atomic i16 9, ptr %2 seq_cst, align 2
  ret void
}
define void @b() {
  store atomic i16 7, ptr @h seq_cst, align 2
  ret void
}
