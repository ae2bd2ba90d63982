; The moves of a tower of four discs.
define i32 @moves(i32 %discs) {
  %none = icmp eq i32 %discs, 0
  br i1 %none, label %end, label %some
some:
  %less = sub i32 %discs, 1
  %a = call i32 @moves(i32 %less)
  %b = shl i32 %a, 1
  %c = or i32 %b, 1
  ret i32 %c
end:
  ret i32 0
}
define i32 @f() {
  %a = call i32 @moves(i32 4)
  ret i32 %a
}
