; 7^13 modulo 1000 by squaring.
define i32 @f() {
  br label %head
head:
  %power = phi i32 [ 1, %0 ], [ %kept, %head ]
  %base = phi i32 [ 7, %0 ], [ %square, %head ]
  %left = phi i32 [ 13, %0 ], [ %half, %head ]
  %low = trunc i32 %left to i1
  %times = mul i32 %power, %base
  %rest = urem i32 %times, 1000
  %kept = select i1 %low, i32 %rest, i32 %power
  %product = mul i32 %base, %base
  %square = urem i32 %product, 1000
  %half = lshr i32 %left, 1
  %end = icmp eq i32 %half, 0
  br i1 %end, label %done, label %head
done:
  ret i32 %kept
}
