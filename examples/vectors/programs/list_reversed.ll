; A list of the digits from some number down to one, in an array of cells, is reversed and then read.
%cell = type { i32, ptr }

define i32 @reversed(i32 %count) {
entry:
  %cells = alloca [9 x %cell], align 8
  br label %build
build:
  %i = phi i32 [ 0, %entry ], [ %digit, %build ]
  %list = phi ptr [ null, %entry ], [ %cell, %build ]
  %index = zext i32 %i to i64
  %cell = getelementptr inbounds [9 x %cell], ptr %cells, i64 0, i64 %index
  %digit = add nuw nsw i32 %i, 1
  %digit.at = getelementptr inbounds %cell, ptr %cell, i64 0, i32 0
  store i32 %digit, ptr %digit.at, align 8
  %next.at = getelementptr inbounds %cell, ptr %cell, i64 0, i32 1
  store ptr %list, ptr %next.at, align 8
  %more = icmp ult i32 %digit, %count
  br i1 %more, label %build, label %built
built:
  br label %turn
turn:
  %rest = phi ptr [ %cell, %built ], [ %after, %turn ]
  %done = phi ptr [ null, %built ], [ %rest, %turn ]
  %link = getelementptr inbounds %cell, ptr %rest, i64 0, i32 1
  %after = load ptr, ptr %link, align 8
  store ptr %done, ptr %link, align 8
  %end = icmp eq ptr %after, null
  br i1 %end, label %read, label %turn
read:
  %at = phi ptr [ %rest, %turn ], [ %further, %read ]
  %number = phi i32 [ 0, %turn ], [ %number.next, %read ]
  %here = load i32, ptr %at, align 8
  %tens = mul nuw nsw i32 %number, 10
  %number.next = add nuw nsw i32 %tens, %here
  %further.at = getelementptr inbounds %cell, ptr %at, i64 0, i32 1
  %further = load ptr, ptr %further.at, align 8
  %last = icmp eq ptr %further, null
  br i1 %last, label %out, label %read
out:
  ret i32 %number.next
}
