; 3 - 5 at 16 bits is -2, and stays so when it is widened with its sign.
define i32 @f() {
  %less = sub i16 3, 5
  %wide = sext i16 %less to i32
  ret i32 %wide
}
