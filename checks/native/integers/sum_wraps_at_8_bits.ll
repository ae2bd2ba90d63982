; 200 + 100 is 44 modulo 256.
define i32 @f() {
  %sum = add i8 200, 100
  %wide = zext i8 %sum to i32
  ret i32 %wide
}
