define i64 @factorial(i64 %n) {
  %least = icmp ule i64 %n, 1
  br i1 %least, label %one, label %more
one:
  ret i64 1
more:
  %less = sub i64 %n, 1
  %rest = call i64 @factorial(i64 %less)
  %product = mul i64 %n, %rest
  ret i64 %product
}
define i64 @f() {
  %a = call i64 @factorial(i64 6)
  ret i64 %a
}
