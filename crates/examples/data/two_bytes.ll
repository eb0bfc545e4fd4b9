; Two processors add to neighbouring bytes of one word: the pair store of one fails where the other
; has written its byte in between, and is made again with the word as it is then.
@c = global [4 x i8] zeroinitializer, align 4
define void @a() {
  %1 = atomicrmw add ptr @c, i8 1 seq_cst, align 1
  ret void
}
define void @b() {
  %1 = atomicrmw add ptr getelementptr inbounds ([4 x i8], ptr @c, i64 0, i64 1), i8 1 seq_cst, align 1
  ret void
}
