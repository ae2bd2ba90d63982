; A signed quotient goes towards zero, and a remainder has its dividend's sign.
define i32 @f() {
  %a = sdiv i32 -7, 2
  %b = srem i32 -7, 2
  %c = sdiv i32 7, -2
  %d = srem i32 7, -2
  %a1 = mul i32 %a, 1000
  %b1 = mul i32 %b, 100
  %c1 = mul i32 %c, 10
  %e = add i32 %a1, %b1
  %g = add i32 %c1, %d
  %h = add i32 %e, %g
  ret i32 %h
}
