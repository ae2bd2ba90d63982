; The greatest of the least, by selects.
define i32 @f() {
  %a = icmp slt i32 -5, 0
  %b = select i1 %a, i32 0, i32 -5
  %c = icmp sgt i32 300, 255
  %d = select i1 %c, i32 255, i32 300
  %e = shl i32 %d, 8
  %g = or i32 %e, %b
  ret i32 %g
}
