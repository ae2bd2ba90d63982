; A slot of the stack in each turn of a loop, each with a pointer to the one before; and slots in rows.
define i32 @linked(i32 %count) {
entry:
  br label %make
make:
  %i = phi i32 [ 0, %entry ], [ %i.next, %more ]
  %last = phi ptr [ null, %entry ], [ %slot, %more ]
  %on = icmp ult i32 %i, %count
  br i1 %on, label %more, label %made
more:
  %slot = alloca { i32, ptr }, align 8
  %square = mul nuw nsw i32 %i, %i
  store i32 %square, ptr %slot, align 8
  %link = getelementptr inbounds { i32, ptr }, ptr %slot, i64 0, i32 1
  store ptr %last, ptr %link, align 8
  %i.next = add nuw nsw i32 %i, 1
  br label %make
made:
  br label %read
read:
  %at = phi ptr [ %last, %made ], [ %further, %body ]
  %sum = phi i32 [ 0, %made ], [ %weighed, %body ]
  %end = icmp eq ptr %at, null
  br i1 %end, label %done, label %body
body:
  %number = load i32, ptr %at, align 8
  %twice = shl i32 %sum, 1
  %weighed = add i32 %twice, %number
  %further.at = getelementptr inbounds { i32, ptr }, ptr %at, i64 0, i32 1
  %further = load ptr, ptr %further.at, align 8
  br label %read
done:
  ret i32 %sum
}

; Slots in a row of sixteen: each becomes the sum of the two before it.
define i64 @row(i16 %first, i16 %second, i64 %place) {
entry:
  %row = alloca i64, i32 16, align 16
  %first.wide = sext i16 %first to i64
  %second.wide = sext i16 %second to i64
  store i64 %first.wide, ptr %row, align 16
  %second.at = getelementptr inbounds i64, ptr %row, i64 1
  store i64 %second.wide, ptr %second.at, align 8
  br label %head
head:
  %i = phi i64 [ 2, %entry ], [ %i.next, %head ]
  %at = getelementptr inbounds i64, ptr %row, i64 %i
  %one.at = getelementptr inbounds i64, ptr %at, i64 -1
  %two.at = getelementptr inbounds i64, ptr %at, i64 -2
  %one = load i64, ptr %one.at, align 8
  %two = load i64, ptr %two.at, align 8
  %sum = add nsw i64 %one, %two
  store i64 %sum, ptr %at, align 8
  %i.next = add nuw nsw i64 %i, 1
  %on = icmp ult i64 %i.next, 16
  br i1 %on, label %head, label %done
done:
  %answer.at = getelementptr inbounds i64, ptr %row, i64 %place
  %answer = load i64, ptr %answer.at, align 8
  ret i64 %answer
}

; Each call has a slot of its own, which another function changes.
define internal void @raise(ptr %slot, i32 %by) {
  %old = load i32, ptr %slot, align 4
  %new = add nsw i32 %old, %by
  store i32 %new, ptr %slot, align 4
  ret void
}
define i32 @nested(i32 %depth) {
entry:
  %slot = alloca i32, align 4
  store i32 1, ptr %slot, align 4
  %end = icmp eq i32 %depth, 0
  br i1 %end, label %out, label %deeper
deeper:
  %less = sub nuw i32 %depth, 1
  %below = call i32 @nested(i32 %less)
  call void @raise(ptr %slot, i32 %below)
  br label %out
out:
  %answer = load i32, ptr %slot, align 4
  ret i32 %answer
}
