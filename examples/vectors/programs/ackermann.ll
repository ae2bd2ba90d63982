; The function of Ackermann and Peter, by recursion in both of its arguments.
define i32 @ackermann(i32 %m, i32 %n) {
entry:
  switch i32 %m, label %some [
    i32 0, label %none
  ]
none:
  %after = add nuw i32 %n, 1
  ret i32 %after
some:
  %below = sub nuw i32 %m, 1
  %zero = icmp eq i32 %n, 0
  br i1 %zero, label %one, label %both
one:
  %a = call i32 @ackermann(i32 %below, i32 1)
  ret i32 %a
both:
  %less = sub nuw i32 %n, 1
  %inner = call i32 @ackermann(i32 %m, i32 %less)
  %b = tail call i32 @ackermann(i32 %below, i32 %inner)
  ret i32 %b
}
