; Whether the brackets of a line match: 0, or the place of the first that doesn't, or one behind the line
; where some are left open. What has to close stands on a stack of bytes.
declare i32 @getchar()

define i32 @main() {
entry:
  %stack = alloca [64 x i8], align 1
  br label %head
head:
  %place = phi i32 [ 1, %entry ], [ %place.next, %next ]
  %depth = phi i64 [ 0, %entry ], [ %depth.next, %next ]
  %c = call i32 @getchar()
  switch i32 %c, label %other [
    i32 -1, label %end
    i32 10, label %end
    i32 40, label %opens
    i32 91, label %opens
    i32 123, label %opens
    i32 41, label %closes
    i32 93, label %closes
    i32 125, label %closes
  ]
opens:
  %round = icmp eq i32 %c, 40
  %apart = select i1 %round, i32 1, i32 2
  %closer = add nuw nsw i32 %c, %apart
  %closer.byte = trunc i32 %closer to i8
  %top = getelementptr inbounds [64 x i8], ptr %stack, i64 0, i64 %depth
  store i8 %closer.byte, ptr %top, align 1
  %deeper = add nuw nsw i64 %depth, 1
  br label %next
closes:
  %none = icmp eq i64 %depth, 0
  br i1 %none, label %fault, label %look
look:
  %less = add nsw i64 %depth, -1
  %last = getelementptr inbounds [64 x i8], ptr %stack, i64 0, i64 %less
  %wanted = load i8, ptr %last, align 1
  %given = trunc i32 %c to i8
  %same = icmp eq i8 %wanted, %given
  br i1 %same, label %next, label %fault
other:
  br label %next
next:
  %depth.next = phi i64 [ %deeper, %opens ], [ %less, %look ], [ %depth, %other ]
  %place.next = add nuw nsw i32 %place, 1
  br label %head
end:
  %shut = icmp eq i64 %depth, 0
  %answer = select i1 %shut, i32 0, i32 %place
  ret i32 %answer
fault:
  ret i32 %place
}
