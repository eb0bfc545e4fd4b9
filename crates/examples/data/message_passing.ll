; Message passing: one processor writes a message and then a flag, the other reads the flag and then
; the message. Where the flag gives 1 the message gives 7.
@message = global i64 0, align 8
@flag = global i64 0, align 8
declare void @out(i64)
define void @a() {
  store atomic i64 7, ptr @message monotonic, align 8
  store atomic i64 1, ptr @flag release, align 8
  ret void
}
define void @b() {
  %1 = load atomic i64, ptr @flag acquire, align 8
  call void @out(i64 %1)
  %2 = load atomic i64, ptr @message monotonic, align 8
  call void @out(i64 %2)
  ret void
}
