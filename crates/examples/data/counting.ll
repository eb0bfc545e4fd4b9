; A loop of 100,000 turns and more, each of which counts in memory: the address, the one, the addition,
; what it found, and the jump back.
@n = global i64 0, align 8
define void @f() {
entry:
  br label %loop
loop:
  %o = atomicrmw add ptr @n, i64 1 monotonic, align 8
  br label %loop
}
