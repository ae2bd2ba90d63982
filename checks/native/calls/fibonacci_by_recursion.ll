define i32 @fib(i32 %n) {
  %small = icmp slt i32 %n, 2
  br i1 %small, label %itself, label %sum
itself:
  ret i32 %n
sum:
  %a = sub i32 %n, 1
  %b = sub i32 %n, 2
  %x = call i32 @fib(i32 %a)
  %y = call i32 @fib(i32 %b)
  %z = add i32 %x, %y
  ret i32 %z
}
define i32 @f() {
  %a = call i32 @fib(i32 5)
  ret i32 %a
}
