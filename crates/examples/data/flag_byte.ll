; A flag as clang writes it: the word round it reaches three bytes past the global.
@l = global i8 0, align 1
declare void @out(i64)
define void @a() {
  %1 = atomicrmw xchg ptr @l, i8 1 acquire, align 1
  %2 = zext i8 %1 to i64
  call void @out(i64 %2)
  ret void
}
