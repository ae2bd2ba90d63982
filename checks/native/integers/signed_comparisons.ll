; The same numbers as signed: 200 is -56.
define i32 @f() {
  %a = icmp slt i8 200, 100
  %b = icmp sle i8 200, 200
  %c = icmp sgt i8 200, 100
  %d = icmp sge i8 100, 200
  %a0 = zext i1 %a to i32
  %b0 = zext i1 %b to i32
  %c0 = zext i1 %c to i32
  %d0 = zext i1 %d to i32
  %b1 = shl i32 %b0, 1
  %c1 = shl i32 %c0, 2
  %d1 = shl i32 %d0, 3
  %e = or i32 %a0, %b1
  %g = or i32 %c1, %d1
  %h = or i32 %e, %g
  ret i32 %h
}
