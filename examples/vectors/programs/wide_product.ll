; The upper half of a product of two numbers of 64 bits, from four products of their halves.
define i64 @upper(i64 %a, i64 %b) {
  %a.low = and i64 %a, 4294967295
  %a.high = lshr i64 %a, 32
  %b.low = and i64 %b, 4294967295
  %b.high = lshr i64 %b, 32
  %low = mul nuw i64 %a.low, %b.low
  %cross.1 = mul nuw i64 %a.low, %b.high
  %cross.2 = mul nuw i64 %a.high, %b.low
  %high = mul nuw i64 %a.high, %b.high
  %carry = lshr i64 %low, 32
  %middle = add nuw i64 %cross.1, %carry
  %middle.low = and i64 %middle, 4294967295
  %middle.high = lshr i64 %middle, 32
  %other = add nuw i64 %cross.2, %middle.low
  %other.high = lshr i64 %other, 32
  %sum = add nuw i64 %high, %middle.high
  %upper = add nuw i64 %sum, %other.high
  ret i64 %upper
}

define i64 @signed_upper(i64 %a, i64 %b) {
  %upper = call i64 @upper(i64 %a, i64 %b)
  %a.sign = ashr i64 %a, 63
  %b.sign = ashr i64 %b, 63
  %b.part = and i64 %a.sign, %b
  %a.part = and i64 %b.sign, %a
  %less = sub i64 %upper, %b.part
  %signed = sub i64 %less, %a.part
  ret i64 %signed
}
