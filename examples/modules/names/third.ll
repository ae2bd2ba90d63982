; The third of three modules: what prevails over the weak definitions of the first.
@base = global i32 20, align 4
declare i32 @putchar(i32)
define i32 @chosen() {
  %b = load i32, ptr @base, align 4
  %c = add i32 %b, 1
  store i32 %c, ptr @base, align 4
  ret i32 2
}
define i32 @third() {
  %n = call i32 @putchar(i32 10)
  ret i32 %n
}
