; Sorts the bytes of a line, writes them, and returns how many moves that took.
@line = internal global [64 x i8] zeroinitializer, align 16

declare i32 @getchar()
declare i32 @putchar(i32)

define internal i32 @sort(ptr %bytes, i64 %count) {
entry:
  br label %outer
outer:
  %i = phi i64 [ 1, %entry ], [ %i.next, %placed ]
  %moves = phi i32 [ 0, %entry ], [ %moves.now, %placed ]
  %on = icmp slt i64 %i, %count
  br i1 %on, label %take, label %done
take:
  %from = getelementptr inbounds i8, ptr %bytes, i64 %i
  %key = load i8, ptr %from, align 1
  br label %inner
inner:
  %j = phi i64 [ %i, %take ], [ %below, %move ]
  %moves.now = phi i32 [ %moves, %take ], [ %moves.next, %move ]
  %first = icmp eq i64 %j, 0
  br i1 %first, label %placed, label %look
look:
  %below = add nsw i64 %j, -1
  %left = getelementptr inbounds i8, ptr %bytes, i64 %below
  %other = load i8, ptr %left, align 1
  %larger = icmp ugt i8 %other, %key
  br i1 %larger, label %move, label %placed
move:
  %right = getelementptr inbounds i8, ptr %bytes, i64 %j
  store i8 %other, ptr %right, align 1
  %moves.next = add nuw nsw i32 %moves.now, 1
  br label %inner
placed:
  %to = getelementptr inbounds i8, ptr %bytes, i64 %j
  store i8 %key, ptr %to, align 1
  %i.next = add nuw nsw i64 %i, 1
  br label %outer
done:
  ret i32 %moves
}

define internal void @show(ptr %bytes, i64 %count) {
entry:
  %end = getelementptr inbounds i8, ptr %bytes, i64 %count
  br label %head
head:
  %at = phi ptr [ %bytes, %entry ], [ %next, %body ]
  %out = icmp eq ptr %at, %end
  br i1 %out, label %done, label %body
body:
  %byte = load i8, ptr %at, align 1
  %code = zext i8 %byte to i32
  %shown = call i32 @putchar(i32 %code)
  %next = getelementptr inbounds i8, ptr %at, i64 1
  br label %head
done:
  ret void
}

define i32 @main() {
entry:
  br label %read
read:
  %count = phi i64 [ 0, %entry ], [ %count.next, %keep ]
  %c = call i32 @getchar()
  switch i32 %c, label %keep [
    i32 -1, label %sort
    i32 10, label %sort
  ]
keep:
  %at = getelementptr inbounds [64 x i8], ptr @line, i64 0, i64 %count
  %byte = trunc i32 %c to i8
  store i8 %byte, ptr %at, align 1
  %count.next = add nuw nsw i64 %count, 1
  br label %read
sort:
  %moves = call i32 @sort(ptr @line, i64 %count)
  call void @show(ptr @line, i64 %count)
  ret i32 %moves
}
