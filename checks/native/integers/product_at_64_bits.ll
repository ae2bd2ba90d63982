; The multiplier of a linear congruential generator, squared modulo 2^64.
define i64 @f() {
  %a = mul i64 6364136223846793005, 6364136223846793005
  %b = add i64 %a, 1442695040888963407
  ret i64 %b
}
