; The bytes of a line in a binary search tree of cells with their counts, written in order, each byte as often as
; it came; returns the tree's height. A place for the next cell is found through a pointer to a pointer.
%cell = type { i8, i32, [2 x ptr] }

@cells = internal global [32 x %cell] zeroinitializer, align 16
@used = internal global i64 0, align 8
@root = internal global ptr null, align 8

declare i32 @getchar()
declare i32 @putchar(i32)

define internal void @insert(i8 %byte) {
entry:
  br label %head
head:
  %place = phi ptr [ @root, %entry ], [ %below, %down ]
  %cell = load ptr, ptr %place, align 8
  %free = icmp eq ptr %cell, null
  br i1 %free, label %fresh, label %look
fresh:
  %count = load i64, ptr @used, align 8
  %count.next = add nuw nsw i64 %count, 1
  store i64 %count.next, ptr @used, align 8
  %new = getelementptr inbounds [32 x %cell], ptr @cells, i64 0, i64 %count
  store i8 %byte, ptr %new, align 8
  store ptr %new, ptr %place, align 8
  br label %seen
look:
  %here = load i8, ptr %cell, align 8
  %equal = icmp eq i8 %here, %byte
  br i1 %equal, label %seen, label %down
down:
  %right = icmp ult i8 %here, %byte
  %side = zext i1 %right to i64
  %below = getelementptr inbounds %cell, ptr %cell, i64 0, i32 2, i64 %side
  br label %head
seen:
  %its.cell = phi ptr [ %new, %fresh ], [ %cell, %look ]
  %times.at = getelementptr inbounds %cell, ptr %its.cell, i64 0, i32 1
  %times = load i32, ptr %times.at, align 4
  %more = add nuw nsw i32 %times, 1
  store i32 %more, ptr %times.at, align 4
  ret void
}

define internal i32 @show(ptr %cell) {
entry:
  %none = icmp eq ptr %cell, null
  br i1 %none, label %leaf, label %some
leaf:
  ret i32 0
some:
  %left.at = getelementptr inbounds %cell, ptr %cell, i64 0, i32 2, i64 0
  %left = load ptr, ptr %left.at, align 8
  %left.height = call i32 @show(ptr %left)
  %byte = load i8, ptr %cell, align 8
  %code = zext i8 %byte to i32
  %times.at = getelementptr inbounds %cell, ptr %cell, i64 0, i32 1
  %times = load i32, ptr %times.at, align 4
  br label %write
write:
  %i = phi i32 [ %times, %some ], [ %i.next, %write ]
  %shown = call i32 @putchar(i32 %code)
  %i.next = add nsw i32 %i, -1
  %on = icmp sgt i32 %i.next, 0
  br i1 %on, label %write, label %right
right:
  %right.at = getelementptr inbounds %cell, ptr %cell, i64 0, i32 2, i64 1
  %right.cell = load ptr, ptr %right.at, align 8
  %right.height = call i32 @show(ptr %right.cell)
  %lower = icmp ult i32 %left.height, %right.height
  %height = select i1 %lower, i32 %right.height, i32 %left.height
  %own = add nuw nsw i32 %height, 1
  ret i32 %own
}

define i32 @main() {
entry:
  br label %head
head:
  %c = call i32 @getchar()
  switch i32 %c, label %byte [
    i32 10, label %done
    i32 -1, label %done
  ]
byte:
  %byte.now = trunc i32 %c to i8
  call void @insert(i8 %byte.now)
  br label %head
done:
  %top = load ptr, ptr @root, align 8
  %height = call i32 @show(ptr %top)
  ret i32 %height
}
