; A constant above the greatest of i64.
@aZ_9 = global i64 18446744073709551616, align 8
define void @b_Y8() {
  ret void
}
