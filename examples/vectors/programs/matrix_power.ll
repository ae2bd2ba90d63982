; Numbers of Fibonacci modulo 2^64, by powers of a matrix of two rows that stands in memory.
define internal void @multiply(ptr %to, ptr %a, ptr %b) {
entry:
  %product = alloca [2 x [2 x i64]], align 16
  br label %rows
rows:
  %i = phi i64 [ 0, %entry ], [ %i.next, %row.done ]
  br label %columns
columns:
  %j = phi i64 [ 0, %rows ], [ %j.next, %columns ]
  %a.0.at = getelementptr inbounds [2 x [2 x i64]], ptr %a, i64 0, i64 %i, i64 0
  %a.1.at = getelementptr inbounds [2 x [2 x i64]], ptr %a, i64 0, i64 %i, i64 1
  %b.0.at = getelementptr inbounds [2 x [2 x i64]], ptr %b, i64 0, i64 0, i64 %j
  %b.1.at = getelementptr inbounds [2 x [2 x i64]], ptr %b, i64 0, i64 1, i64 %j
  %a.0 = load i64, ptr %a.0.at, align 8
  %a.1 = load i64, ptr %a.1.at, align 8
  %b.0 = load i64, ptr %b.0.at, align 8
  %b.1 = load i64, ptr %b.1.at, align 8
  %first = mul i64 %a.0, %b.0
  %second = mul i64 %a.1, %b.1
  %sum = add i64 %first, %second
  %sum.at = getelementptr inbounds [2 x [2 x i64]], ptr %product, i64 0, i64 %i, i64 %j
  store i64 %sum, ptr %sum.at, align 8
  %j.next = add nuw nsw i64 %j, 1
  %j.on = icmp ult i64 %j.next, 2
  br i1 %j.on, label %columns, label %row.done
row.done:
  %i.next = add nuw nsw i64 %i, 1
  %i.on = icmp ult i64 %i.next, 2
  br i1 %i.on, label %rows, label %copy
copy:
  %k = phi i64 [ 0, %row.done ], [ %k.next, %copy ]
  %from.at = getelementptr inbounds i64, ptr %product, i64 %k
  %to.at = getelementptr inbounds i64, ptr %to, i64 %k
  %number = load i64, ptr %from.at, align 8
  store i64 %number, ptr %to.at, align 8
  %k.next = add nuw nsw i64 %k, 1
  %k.on = icmp ult i64 %k.next, 4
  br i1 %k.on, label %copy, label %done
done:
  ret void
}

define i64 @fibonacci(i64 %n) {
entry:
  %power = alloca [4 x i64], align 16
  %base = alloca [4 x i64], align 16
  %power.1 = getelementptr inbounds i64, ptr %power, i64 1
  %power.2 = getelementptr inbounds i64, ptr %power, i64 2
  %power.3 = getelementptr inbounds i64, ptr %power, i64 3
  store i64 1, ptr %power, align 16
  store i64 0, ptr %power.1, align 8
  store i64 0, ptr %power.2, align 16
  store i64 1, ptr %power.3, align 8
  %base.1 = getelementptr inbounds i64, ptr %base, i64 1
  %base.2 = getelementptr inbounds i64, ptr %base, i64 2
  %base.3 = getelementptr inbounds i64, ptr %base, i64 3
  store i64 1, ptr %base, align 16
  store i64 1, ptr %base.1, align 8
  store i64 1, ptr %base.2, align 16
  store i64 0, ptr %base.3, align 8
  br label %head
head:
  %left = phi i64 [ %n, %entry ], [ %half, %square ]
  %none = icmp eq i64 %left, 0
  br i1 %none, label %done, label %body
body:
  %odd = trunc i64 %left to i1
  br i1 %odd, label %times, label %square
times:
  call void @multiply(ptr %power, ptr %power, ptr %base)
  br label %square
square:
  call void @multiply(ptr %base, ptr %base, ptr %base)
  %half = lshr i64 %left, 1
  br label %head
done:
  %answer = load i64, ptr %power.1, align 8
  ret i64 %answer
}
