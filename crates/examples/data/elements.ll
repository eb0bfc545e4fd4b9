; Elements of globals of each size, with constants of both signs, in the order of the text.
@b = global [3 x i8] [i8 1, i8 -1, i8 0], align 1
@h = global [2 x i16] [i16 -2, i16 65535], align 2
@"a name" = global i32 -2147483648, align 4
@z = global [100 x i64] zeroinitializer, align 8
@q = global [2 x i128] [i128 -1, i128 170141183460469231731687303715884105728], align 16
@u = global i32 16909060, align 1
define void @f() {
  ret void
}
