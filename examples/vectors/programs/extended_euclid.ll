; a * x + b * y is the greatest common divisor of a and b; x and y come back through pointers.
define internal i32 @solve(i32 %a, i32 %b, ptr %x, ptr %y) {
entry:
  %zero = icmp eq i32 %b, 0
  br i1 %zero, label %last, label %deeper
last:
  store i32 1, ptr %x, align 4
  store i32 0, ptr %y, align 4
  ret i32 %a
deeper:
  %x.slot = alloca i32, align 4
  %y.slot = alloca i32, align 4
  %quotient = sdiv i32 %a, %b
  %rest = srem i32 %a, %b
  %divisor = call i32 @solve(i32 %b, i32 %rest, ptr %x.slot, ptr %y.slot)
  %x.below = load i32, ptr %x.slot, align 4
  %y.below = load i32, ptr %y.slot, align 4
  store i32 %y.below, ptr %x, align 4
  %times = mul nsw i32 %quotient, %y.below
  %other = sub nsw i32 %x.below, %times
  store i32 %other, ptr %y, align 4
  ret i32 %divisor
}

define i32 @divisor(i32 %a, i32 %b) {
  %x = alloca i32, align 4
  %y = alloca i32, align 4
  %divisor = call i32 @solve(i32 %a, i32 %b, ptr %x, ptr %y)
  ret i32 %divisor
}

define i64 @both(i32 %a, i32 %b) {
  %pair = alloca [2 x i32], align 8
  %y = getelementptr inbounds [2 x i32], ptr %pair, i64 0, i64 1
  %divisor = call i32 @solve(i32 %a, i32 %b, ptr %pair, ptr %y)
  %both = load i64, ptr %pair, align 8
  ret i64 %both
}
