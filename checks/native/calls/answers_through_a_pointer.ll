; The callee stores the quotient and returns the remainder.
define i32 @divide(i32 %a, i32 %b, ptr %to) {
  %quotient = sdiv i32 %a, %b
  %rest = srem i32 %a, %b
  store i32 %quotient, ptr %to, align 4
  ret i32 %rest
}
define i32 @f() {
  %slot = alloca i32, align 4
  %rest = call i32 @divide(i32 1000, i32 7, ptr %slot)
  %quotient = load i32, ptr %slot, align 4
  %a = mul i32 %quotient, 10
  %b = add i32 %a, %rest
  ret i32 %b
}
