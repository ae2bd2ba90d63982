define i32 @f() {
  br label %head
head:
  %i = phi i32 [ 1, %0 ], [ %next, %head ]
  %sum = phi i32 [ 0, %0 ], [ %more, %head ]
  %more = add nuw nsw i32 %sum, %i
  %next = add nuw nsw i32 %i, 1
  %on = icmp ult i32 %i, 10
  br i1 %on, label %head, label %done
done:
  ret i32 %more
}
