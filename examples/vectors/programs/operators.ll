; Operators in a table of functions: applied, folded over the numbers from 1 on, and compared as pointers.
@operators = internal constant [4 x ptr] [ptr @plus, ptr @minus, ptr @times, ptr @greater], align 8
@second = internal constant ptr getelementptr inbounds ([4 x ptr], ptr @operators, i64 0, i64 1), align 8

define internal i32 @plus(i32 %a, i32 %b) {
  %r = add i32 %a, %b
  ret i32 %r
}
define internal i32 @minus(i32 %a, i32 %b) {
  %r = sub i32 %a, %b
  ret i32 %r
}
define internal i32 @times(i32 %a, i32 %b) {
  %r = mul i32 %a, %b
  ret i32 %r
}
define internal i32 @greater(i32 %a, i32 %b) {
  %less = icmp slt i32 %a, %b
  %r = select i1 %less, i32 %b, i32 %a
  ret i32 %r
}

define internal ptr @chosen(i64 %which) {
  %at = getelementptr inbounds [4 x ptr], ptr @operators, i64 0, i64 %which
  %operator = load ptr, ptr %at, align 8
  ret ptr %operator
}

define i32 @applied(i64 %which, i32 %a, i32 %b) {
  %operator = call ptr @chosen(i64 %which)
  %r = call i32 %operator(i32 %a, i32 %b)
  ret i32 %r
}

define i32 @folded(i64 %which, i32 %from, i32 %count) {
entry:
  %operator = call ptr @chosen(i64 %which)
  br label %head
head:
  %i = phi i32 [ 0, %entry ], [ %i.next, %body ]
  %so.far = phi i32 [ %from, %entry ], [ %r, %body ]
  %on = icmp ult i32 %i, %count
  br i1 %on, label %body, label %done
body:
  %i.next = add nuw i32 %i, 1
  %r = call i32 (i32, i32) %operator(i32 %so.far, i32 %i.next)
  br label %head
done:
  ret i32 %so.far
}

define i1 @same(i64 %a, i64 %b) {
  %f = call ptr @chosen(i64 %a)
  %g = call ptr @chosen(i64 %b)
  %same = icmp eq ptr %f, %g
  ret i1 %same
}

; The operator in the second place, by a pointer to the place that is itself a constant.
define i32 @in_second_place(i32 %a, i32 %b) {
  %at = load ptr, ptr @second, align 8
  %operator = load ptr, ptr %at, align 8
  %is.minus = icmp ne ptr %operator, @minus
  br i1 %is.minus, label %never, label %apply
apply:
  %r = call i32 %operator(i32 %a, i32 %b)
  ret i32 %r
never:
  unreachable
}
