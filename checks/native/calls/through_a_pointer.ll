; The callee is chosen by a select, kept in memory and loaded.
define i32 @twice(i32 %n) {
  %a = shl i32 %n, 1
  ret i32 %a
}
define i32 @square(i32 %n) {
  %a = mul i32 %n, %n
  ret i32 %a
}
define i32 @f() {
  %slot = alloca ptr, align 8
  %larger = icmp ult i32 3, 5
  %chosen = select i1 %larger, ptr @square, ptr @twice
  store ptr %chosen, ptr %slot, align 8
  %callee = load ptr, ptr %slot, align 8
  %a = call i32 %callee(i32 9)
  %b = call i32 @twice(i32 %a)
  ret i32 %b
}
