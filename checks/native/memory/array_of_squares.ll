; Fills an array with squares, and adds up what it holds.
define i32 @f() {
  %squares = alloca [4 x i32], align 16
  br label %fill
fill:
  %i = phi i64 [ 0, %0 ], [ %i1, %fill ]
  %n = trunc i64 %i to i32
  %square = mul i32 %n, %n
  %at = getelementptr inbounds [4 x i32], ptr %squares, i64 0, i64 %i
  store i32 %square, ptr %at, align 4
  %i1 = add i64 %i, 1
  %filled = icmp eq i64 %i1, 4
  br i1 %filled, label %sum, label %fill
sum:
  %j = phi i64 [ 0, %fill ], [ %j1, %sum ]
  %total = phi i32 [ 0, %fill ], [ %more, %sum ]
  %from = getelementptr inbounds i32, ptr %squares, i64 %j
  %value = load i32, ptr %from, align 4
  %more = add i32 %total, %value
  %j1 = add i64 %j, 1
  %summed = icmp eq i64 %j1, 4
  br i1 %summed, label %done, label %sum
done:
  ret i32 %more
}
