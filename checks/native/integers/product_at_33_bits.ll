; 5000000000 * 7 modulo 2^33.
define i64 @f() {
  %a = trunc i64 5000000000 to i33
  %b = mul i33 %a, 7
  %c = zext i33 %b to i64
  ret i64 %c
}
