; Two phis that take each other's value of the turn before.
define i64 @f() {
  br label %head
head:
  %i = phi i32 [ 0, %0 ], [ %next, %body ]
  %a = phi i64 [ 0, %0 ], [ %b, %body ]
  %b = phi i64 [ 1, %0 ], [ %c, %body ]
  %on = icmp ne i32 %i, 12
  br i1 %on, label %body, label %done
body:
  %c = add i64 %a, %b
  %next = add i32 %i, 1
  br label %head
done:
  ret i64 %a
}
