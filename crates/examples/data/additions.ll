; Additions that a row gives, so many that a frame is out of reach of an instruction's offset.
@x = global i64 0, align 8
declare void @out(i64)
define void @f() {
; ..
  ret void
}
