; Three nodes of a value and the next node; the last one's next is null.
define i32 @f() {
  %a = alloca { i32, ptr }, align 8
  %b = alloca { i32, ptr }, align 8
  %a1 = getelementptr inbounds { i32, ptr }, ptr %a, i64 0, i32 1
  %b1 = getelementptr inbounds { i32, ptr }, ptr %b, i64 0, i32 1
  store i32 20, ptr %a, align 8
  store i32 22, ptr %b, align 8
  store ptr %b, ptr %a1, align 8
  store ptr null, ptr %b1, align 8
  br label %head
head:
  %node = phi ptr [ %a, %0 ], [ %next, %body ]
  %sum = phi i32 [ 0, %0 ], [ %more, %body ]
  %end = icmp eq ptr %node, null
  br i1 %end, label %done, label %body
body:
  %value = load i32, ptr %node, align 8
  %more = add i32 %sum, %value
  %at = getelementptr inbounds { i32, ptr }, ptr %node, i64 0, i32 1
  %next = load ptr, ptr %at, align 8
  br label %head
done:
  ret i32 %sum
}
