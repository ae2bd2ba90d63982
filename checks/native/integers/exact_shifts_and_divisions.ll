define i32 @f() {
  %a = lshr exact i32 96, 5
  %b = ashr exact i32 -96, 5
  %c = udiv exact i32 91, 7
  %d = sdiv exact i32 -91, 7
  %ab = mul i32 %a, %b
  %cd = mul i32 %c, %d
  %e = sub i32 %ab, %cd
  ret i32 %e
}
