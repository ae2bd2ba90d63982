; At one bit, 1 + 1 is 0 and 1 is the least number.
define i32 @f() {
  %a = add i1 true, true
  %b = xor i1 %a, true
  %c = icmp slt i1 %b, %a
  %d = sext i1 %b to i32
  %e = zext i1 %c to i32
  %g = add i32 %d, %e
  ret i32 %g
}
