; Writes a row of Pascal's triangle, made in place from the rows above it.
@row = internal global [40 x i64] zeroinitializer, align 16

declare i32 @putchar(i32)

define internal void @show(i64 %n) {
entry:
  %digits = alloca [20 x i8], align 1
  %end = getelementptr inbounds [20 x i8], ptr %digits, i64 0, i64 20
  br label %cut
cut:
  %left = phi i64 [ %n, %entry ], [ %above, %cut ]
  %before = phi ptr [ %end, %entry ], [ %at, %cut ]
  %above = udiv i64 %left, 10
  %digit = urem i64 %left, 10
  %code = add nuw nsw i64 %digit, 48
  %byte = trunc i64 %code to i8
  %at = getelementptr inbounds i8, ptr %before, i64 -1
  store i8 %byte, ptr %at, align 1
  %more = icmp ne i64 %above, 0
  br i1 %more, label %cut, label %write
write:
  %from = phi ptr [ %at, %cut ], [ %next, %write ]
  %char = load i8, ptr %from, align 1
  %wide = sext i8 %char to i32
  %shown = call i32 @putchar(i32 %wide)
  %next = getelementptr inbounds i8, ptr %from, i64 1
  %on = icmp ult ptr %next, %end
  br i1 %on, label %write, label %done
done:
  ret void
}

define void @triangle(i64 %n) {
entry:
  store i64 1, ptr @row, align 16
  br label %rows
rows:
  %r = phi i64 [ 0, %entry ], [ %r.next, %summed ]
  %rows.on = icmp ult i64 %r, %n
  br i1 %rows.on, label %row, label %show
row:
  %r.next = add nuw nsw i64 %r, 1
  br label %sums
sums:
  %k = phi i64 [ %r.next, %row ], [ %k.less, %sums ]
  %k.less = add nsw i64 %k, -1
  %here = getelementptr inbounds [40 x i64], ptr @row, i64 0, i64 %k
  %left = getelementptr inbounds i64, ptr %here, i64 -1
  %a = load i64, ptr %here, align 8
  %b = load i64, ptr %left, align 8
  %sum = add nuw i64 %a, %b
  store i64 %sum, ptr %here, align 8
  %last = icmp eq i64 %k.less, 0
  br i1 %last, label %summed, label %sums
summed:
  br label %rows
show:
  br label %each
each:
  %i = phi i64 [ 0, %show ], [ %i.next, %spaced ]
  %at = getelementptr inbounds [40 x i64], ptr @row, i64 0, i64 %i
  %number = load i64, ptr %at, align 8
  call void @show(i64 %number)
  %end = icmp eq i64 %i, %n
  br i1 %end, label %out, label %spaced
spaced:
  %blank = call i32 @putchar(i32 32)
  %i.next = add nuw nsw i64 %i, 1
  br label %each
out:
  %newline = call i32 @putchar(i32 10)
  ret void
}
