; The greatest constant of i64, and names of letters, digits and underscores.
@aZ_9 = global i64 18446744073709551615, align 8
define void @b_Y8() {
  ret void
}
