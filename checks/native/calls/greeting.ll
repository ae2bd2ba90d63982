; Two bytes are written; the answer of putchar is the byte.
declare i32 @putchar(i32)
define i32 @f() {
  %a = call i32 @putchar(i32 72)
  %b = call i32 @putchar(i32 105)
  %c = add i32 %a, %b
  ret i32 %c
}
