; The logical shift brings in zeros, the arithmetic one the sign.
define i64 @f() {
  %logical = lshr i64 -1000, 3
  %arithmetic = ashr i64 -1000, 3
  %both = xor i64 %logical, %arithmetic
  ret i64 %both
}
