; A byte and two words that begin where it ends, and behind them four halfwords, 16 bytes and a byte,
; which are aligned.
@a = global i8 0, align 1
@b = global i32 0, align 1
@c = global i32 0, align 1
@d = global [4 x i16] zeroinitializer
@e = global i128 0
@f = global i8 0, align 4096
define void @unused() {
  ret void
}
