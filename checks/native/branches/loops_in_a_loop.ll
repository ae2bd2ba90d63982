; The sum of i * j for i, j from 1 to 3.
define i32 @f() {
  br label %outer
outer:
  %i = phi i32 [ 1, %0 ], [ %i1, %next ]
  %sum = phi i32 [ 0, %0 ], [ %more, %next ]
  br label %inner
inner:
  %j = phi i32 [ 1, %outer ], [ %j1, %inner ]
  %part = phi i32 [ %sum, %outer ], [ %more, %inner ]
  %product = mul i32 %i, %j
  %more = add i32 %part, %product
  %j1 = add i32 %j, 1
  %on = icmp sle i32 %j1, 3
  br i1 %on, label %inner, label %next
next:
  %i1 = add i32 %i, 1
  %again = icmp sle i32 %i1, 3
  br i1 %again, label %outer, label %done
done:
  ret i32 %more
}
