; The ones of 0xb5, each cleared by n & (n - 1).
define i32 @f() {
  br label %head
head:
  %n = phi i32 [ 181, %0 ], [ %cleared, %body ]
  %ones = phi i32 [ 0, %0 ], [ %more, %body ]
  %end = icmp eq i32 %n, 0
  br i1 %end, label %done, label %body
body:
  %less = sub i32 %n, 1
  %cleared = and i32 %n, %less
  %more = add i32 %ones, 1
  br label %head
done:
  ret i32 %ones
}
