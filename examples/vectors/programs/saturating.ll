; Sums and differences that stay at the least or greatest number where they would pass it, at 8 and 33 bits.
define i8 @signed_sum(i8 %a, i8 %b) {
  %a.wide = sext i8 %a to i16
  %b.wide = sext i8 %b to i16
  %sum = add nsw i16 %a.wide, %b.wide
  %over = icmp sgt i16 %sum, 127
  %most = select i1 %over, i16 127, i16 %sum
  %under = icmp slt i16 %most, -128
  %held = select i1 %under, i16 -128, i16 %most
  %result = trunc i16 %held to i8
  ret i8 %result
}

define i8 @unsigned_sum(i8 %a, i8 %b) {
  %sum = add i8 %a, %b
  %over = icmp ult i8 %sum, %a
  %all = sext i1 %over to i8
  %result = or i8 %sum, %all
  ret i8 %result
}

define i33 @unsigned_difference(i33 %a, i33 %b) {
  %under = icmp ult i33 %a, %b
  %difference = sub i33 %a, %b
  %result = select i1 %under, i33 0, i33 %difference
  ret i33 %result
}

define i33 @signed_difference(i33 %a, i33 %b) {
  %difference = sub i33 %a, %b
  %signs = xor i33 %a, %b
  %turned = xor i33 %a, %difference
  %both = and i33 %signs, %turned
  %over = icmp slt i33 %both, 0
  %sign = ashr i33 %a, 32
  %edge = xor i33 %sign, 4294967295
  %result = select i1 %over, i33 %edge, i33 %difference
  ret i33 %result
}
