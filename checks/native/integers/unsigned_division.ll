; 2^64 - 1 divided by ten, and what is left.
define i64 @f() {
  %quotient = udiv i64 -1, 10
  %rest = urem i64 -1, 10
  %times = mul i64 %rest, 1000000007
  %sum = add i64 %quotient, %times
  ret i64 %sum
}
