; The second of two modules: a function that others call, and one of its own.
define i32 @tripled(i32 %x) {
  %y = call i32 @times(i32 %x)
  %z = add i32 %y, 1
  ret i32 %z
}
define internal i32 @times(i32 %x) noinline {
  %y = mul i32 %x, 3
  ret i32 %y
}
