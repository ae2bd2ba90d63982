; A pointer goes from the first element to one past the last.
@bytes = constant [4 x i8] [i8 9, i8 8, i8 7, i8 6], align 1
define i32 @f() {
  %end = getelementptr inbounds [4 x i8], ptr @bytes, i64 1
  br label %head
head:
  %p = phi ptr [ @bytes, %0 ], [ %next, %head ]
  %sum = phi i32 [ 0, %0 ], [ %more, %head ]
  %byte = load i8, ptr %p, align 1
  %wide = zext i8 %byte to i32
  %more = add i32 %sum, %wide
  %next = getelementptr inbounds i8, ptr %p, i64 1
  %on = icmp ult ptr %next, %end
  br i1 %on, label %head, label %done
done:
  ret i32 %more
}
