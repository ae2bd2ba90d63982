; The first of two modules: it calls a function of the other one. Returns 13.
define i32 @main() {
  %r = call i32 @tripled(i32 4)
  ret i32 %r
}
declare i32 @tripled(i32)
