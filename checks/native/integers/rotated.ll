; A rotation by 13 bits, of a left and a right shift.
define i32 @f() {
  %a = shl i32 305419896, 13
  %b = lshr i32 305419896, 19
  %c = or i32 %a, %b
  ret i32 %c
}
