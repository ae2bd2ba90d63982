; Operations whose flags are met, at the edges of eight bits.
define i8 @add_nsw(i8 %a, i8 %b) {
  %r = add nsw i8 %a, %b
  ret i8 %r
}
define i8 @add_nuw(i8 %a, i8 %b) {
  %r = add nuw i8 %a, %b
  ret i8 %r
}
define i8 @sub_nsw(i8 %a, i8 %b) {
  %r = sub nsw i8 %a, %b
  ret i8 %r
}
define i8 @sub_nuw(i8 %a, i8 %b) {
  %r = sub nuw i8 %a, %b
  ret i8 %r
}
define i8 @mul_nsw(i8 %a, i8 %b) {
  %r = mul nsw i8 %a, %b
  ret i8 %r
}
define i8 @mul_nuw(i8 %a, i8 %b) {
  %r = mul nuw i8 %a, %b
  ret i8 %r
}
define i8 @shl_nsw(i8 %a, i8 %b) {
  %r = shl nsw i8 %a, %b
  ret i8 %r
}
define i8 @shl_nuw(i8 %a, i8 %b) {
  %r = shl nuw i8 %a, %b
  ret i8 %r
}
define i8 @udiv_exact(i8 %a, i8 %b) {
  %r = udiv exact i8 %a, %b
  ret i8 %r
}
define i8 @sdiv_exact(i8 %a, i8 %b) {
  %r = sdiv exact i8 %a, %b
  ret i8 %r
}
define i8 @lshr_exact(i8 %a, i8 %b) {
  %r = lshr exact i8 %a, %b
  ret i8 %r
}
define i8 @ashr_exact(i8 %a, i8 %b) {
  %r = ashr exact i8 %a, %b
  ret i8 %r
}

; 249 times a number, by way of products, quotients and shifts that lose nothing.
define i32 @scaled(i16 %n) {
  %wide = sext i16 %n to i32
  %a = mul nsw i32 %wide, 1000
  %b = sdiv exact i32 %a, 8
  %c = shl nsw i32 %b, 2
  %d = ashr exact i32 %c, 1
  %e = sub nsw i32 %d, %wide
  ret i32 %e
}
