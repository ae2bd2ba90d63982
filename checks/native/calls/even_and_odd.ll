; Two functions that call each other.
define i1 @even(i32 %n) {
  %zero = icmp eq i32 %n, 0
  br i1 %zero, label %yes, label %less
yes:
  ret i1 true
less:
  %m = sub i32 %n, 1
  %a = call i1 @odd(i32 %m)
  ret i1 %a
}
define i1 @odd(i32 %n) {
  %zero = icmp eq i32 %n, 0
  br i1 %zero, label %no, label %less
no:
  ret i1 false
less:
  %m = sub i32 %n, 1
  %a = call i1 @even(i32 %m)
  ret i1 %a
}
define i32 @f() {
  %a = call i1 @even(i32 5)
  %b = call i1 @odd(i32 5)
  %c = zext i1 %a to i32
  %d = zext i1 %b to i32
  %e = shl i32 %d, 1
  %g = or i32 %c, %e
  ret i32 %g
}
