; What schedules may name: three functions, and a global that is none of them.
@h = global i8 0
define void @f() {
  ret void
}
define void @g() {
  ret void
}
define void @"a b"() {
  ret void
}
