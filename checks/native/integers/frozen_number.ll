; A freeze of a number is the number.
define i32 @f() {
  %a = mul i32 6, 7
  %b = freeze i32 %a
  ret i32 %b
}
