; Down to 8 bits, and up again with the sign and without.
define i64 @f() {
  %a = trunc i64 511 to i8
  %b = sext i8 %a to i64
  %c = zext i8 %a to i64
  %d = trunc i32 254 to i1
  %e = sext i1 %d to i64
  %g = mul i64 %b, %c
  %h = sub i64 %g, %e
  ret i64 %h
}
