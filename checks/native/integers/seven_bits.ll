; 100 + 50 at 7 bits is 22; 22 shifted left by 3 is 48; as signed, 48 is positive and 100 is not.
define i32 @f() {
  %a = add i7 -28, 50
  %b = shl i7 %a, 3
  %c = icmp slt i7 -28, %b
  %d = zext i7 %b to i32
  %e = select i1 %c, i32 %d, i32 0
  ret i32 %e
}
