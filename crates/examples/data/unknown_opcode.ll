@x = global i64 0, align 8 ; Unknown opcode, in line 4.
declare void @out(i64)
define void @f() {
  %1 = fdiv float %a, %b
  ret void
}
