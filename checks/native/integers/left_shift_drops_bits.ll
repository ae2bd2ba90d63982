define i32 @f() {
  %a = shl i32 -1234567891, 5
  ret i32 %a
}
