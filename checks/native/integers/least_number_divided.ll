; -128 / 1 and -128 % 127 at 8 bits: the least number has no positive counterpart.
define i32 @f() {
  %a = sdiv i8 -128, 1
  %b = srem i8 -128, 127
  %a1 = sext i8 %a to i32
  %b1 = sext i8 %b to i32
  %c = mul i32 %a1, 1000
  %d = add i32 %c, %b1
  ret i32 %d
}
