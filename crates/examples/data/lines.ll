; A function whose lines a row gives, and globals of each kind. They lie at 0x10000, 0x10004,
; 0x10018, 0x10020, 0x10030 and 0x10031; the last is locked.
@b = global [4 x i8] zeroinitializer, align 1
@w = global [4 x i32] zeroinitializer, align 4
@d = global i64 0, align 8
@q = global i128 0, align 16
@p = global i8 0, align 1
@u = global [2 x i32] zeroinitializer, align 1
define void @f() {
; ..
  ret void
}
