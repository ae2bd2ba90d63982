; The sequence n -> n / 2 or 3 n + 1 from 6 takes 8 steps.
define i32 @f() {
  br label %head
head:
  %n = phi i32 [ 6, %0 ], [ %half, %even ], [ %triple, %odd ]
  %steps = phi i32 [ 0, %0 ], [ %more, %even ], [ %more, %odd ]
  %end = icmp eq i32 %n, 1
  br i1 %end, label %done, label %body
body:
  %more = add i32 %steps, 1
  %low = trunc i32 %n to i1
  br i1 %low, label %odd, label %even
even:
  %half = lshr exact i32 %n, 1
  br label %head
odd:
  %three = mul i32 %n, 3
  %triple = add i32 %three, 1
  br label %head
done:
  ret i32 %steps
}
