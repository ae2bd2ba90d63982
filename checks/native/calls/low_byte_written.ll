; Of its argument putchar writes the lowest byte, and returns it.
declare i32 @putchar(i32)
define i32 @f() {
  %a = call i32 @putchar(i32 833)
  ret i32 %a
}
