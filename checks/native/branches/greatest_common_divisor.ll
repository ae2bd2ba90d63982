define i32 @f() {
  br label %head
head:
  %a = phi i32 [ 1071, %0 ], [ %b, %body ]
  %b = phi i32 [ 462, %0 ], [ %rest, %body ]
  %end = icmp eq i32 %b, 0
  br i1 %end, label %done, label %body
body:
  %rest = urem i32 %a, %b
  br label %head
done:
  ret i32 %a
}
