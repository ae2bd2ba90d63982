; The first of three modules of one program. Returns 125.
@count = internal global i32 5, align 4
@limit = external global i32, align 4
@base = weak global i32 1, align 4
define internal i32 @counted() {
  %c = load i32, ptr @count, align 4
  %d = add i32 %c, 1
  store i32 %d, ptr @count, align 4
  ret i32 %d
}
define linkonce_odr i32 @twice(i32 %x) {
  %y = shl i32 %x, 1
  ret i32 %y
}
define available_externally i32 @thrice(i32 %x) {
  %y = add i32 %x, %x
  %z = add i32 %y, %x
  ret i32 %z
}
define weak i32 @chosen() {
  ret i32 1
}
declare i32 @second()
declare i32 @third()
declare i32 @putchar(i32)
define i32 @main() {
  %a = call i32 @counted()
  %b = call i32 @second()
  %c = call i32 @counted()
  %d = call i32 @third()
  %e = call i32 @twice(i32 %c)
  %f = call i32 @thrice(i32 %d)
  %g = call i32 @chosen()
  %h = load i32, ptr @limit, align 4
  %i = load i32, ptr @base, align 4
  %w = call i32 @putchar(i32 72)
  %s = add i32 %a, %b
  %t = add i32 %s, %e
  %u = add i32 %t, %f
  %v = add i32 %u, %g
  %x = add i32 %v, %h
  %y = add i32 %x, %i
  ret i32 %y
}
