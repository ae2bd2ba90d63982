@table = constant [5 x i16] [i16 3, i16 1, i16 4, i16 1, i16 -5], align 2
define i32 @f() {
  %fourth = getelementptr inbounds [5 x i16], ptr @table, i64 0, i64 4
  %value = load i16, ptr %fourth, align 2
  %wide = sext i16 %value to i32
  ret i32 %wide
}
