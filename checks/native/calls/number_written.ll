; A number is written by a recursion over its digits.
declare i32 @putchar(i32)
define void @write(i32 %n) {
  %rest = udiv i32 %n, 10
  %digit = urem i32 %n, 10
  %last = icmp eq i32 %rest, 0
  br i1 %last, label %show, label %first
first:
  call void @write(i32 %rest)
  br label %show
show:
  %code = add i32 %digit, 48
  %shown = call i32 @putchar(i32 %code)
  ret void
}
define i32 @f() {
  call void @write(i32 1729)
  ret i32 0
}
