; The second of three modules: a variable and a function of its own with names that the first has too.
@count = internal global i32 40, align 4
@limit = global i32 9, align 4
declare i32 @putchar(i32)
define internal i32 @counted() {
  %c = load i32, ptr @count, align 4
  %d = add i32 %c, 2
  store i32 %d, ptr @count, align 4
  %l = load i32, ptr @limit, align 4
  %m = add i32 %l, 1
  store i32 %m, ptr @limit, align 4
  ret i32 %d
}
define linkonce_odr i32 @twice(i32 %x) {
  %y = shl i32 %x, 1
  ret i32 %y
}
define i32 @second() {
  %a = call i32 @counted()
  %w = call i32 @putchar(i32 105)
  %b = call i32 @twice(i32 %a)
  %c = sub i32 %b, %a
  ret i32 %c
}
define i32 @thrice(i32 %x) {
  %y = mul i32 %x, 3
  ret i32 %y
}
