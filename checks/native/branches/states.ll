; A switch in a loop: state 0 leads to 2, 2 to 1, 1 to the end, each with a weight.
define i32 @f() {
  br label %head
head:
  %state = phi i32 [ 0, %0 ], [ 2, %zero ], [ -1, %one ], [ 1, %two ]
  %sum = phi i32 [ 0, %0 ], [ %a, %zero ], [ %b, %one ], [ %c, %two ]
  switch i32 %state, label %done [
    i32 0, label %zero
    i32 1, label %one
    i32 2, label %two
  ]
zero:
  %a = add i32 %sum, 100
  br label %head
one:
  %b = mul i32 %sum, 3
  br label %head
two:
  %c = sub i32 %sum, 7
  br label %head
done:
  ret i32 %sum
}
