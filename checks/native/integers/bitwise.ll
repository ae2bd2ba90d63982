define i32 @f() {
  %a = and i32 252645135, 1431655765
  %b = or i32 %a, 16
  %c = xor i32 %b, -1
  ret i32 %c
}
