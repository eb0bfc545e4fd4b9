; A loop that has no end: each turn is one jump, which is a step.
define void @f() {
entry:
  br label %loop
loop:
  br label %loop
}
