; Each activation has a slot of its own.
define i32 @depth(i32 %n) {
  %slot = alloca i32, align 4
  store i32 %n, ptr %slot, align 4
  %zero = icmp eq i32 %n, 0
  br i1 %zero, label %end, label %deeper
deeper:
  %less = sub i32 %n, 1
  %below = call i32 @depth(i32 %less)
  %own = load i32, ptr %slot, align 4
  %tens = mul i32 %below, 10
  %sum = add i32 %tens, %own
  ret i32 %sum
end:
  ret i32 0
}
define i32 @f() {
  %a = call i32 @depth(i32 4)
  ret i32 %a
}
