; The place of a number in a sorted table, by halving; -1 where the table lacks it.
@table = internal constant [12 x i16] [i16 -32768, i16 -1200, i16 -77, i16 -1, i16 0, i16 3, i16 4, i16 90, i16 91, i16 1000, i16 30000, i16 32767], align 2

define i32 @place(i16 %wanted) {
entry:
  br label %head
head:
  %low = phi i32 [ 0, %entry ], [ %low.next, %body ]
  %high = phi i32 [ 12, %entry ], [ %high.next, %body ]
  %some = icmp ult i32 %low, %high
  br i1 %some, label %middle, label %none
middle:
  %sum = add nuw nsw i32 %low, %high
  %mid = lshr i32 %sum, 1
  %index = zext i32 %mid to i64
  %at = getelementptr inbounds [12 x i16], ptr @table, i64 0, i64 %index
  %here = load i16, ptr %at, align 2
  %found = icmp eq i16 %here, %wanted
  br i1 %found, label %hit, label %body
body:
  %left = icmp slt i16 %wanted, %here
  %above = add nuw nsw i32 %mid, 1
  %low.next = select i1 %left, i32 %low, i32 %above
  %high.next = select i1 %left, i32 %mid, i32 %high
  br label %head
hit:
  ret i32 %mid
none:
  ret i32 -1
}
