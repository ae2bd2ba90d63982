; Small letters of the input are written as capitals, up to the input's end.
declare i32 @getchar()
declare i32 @putchar(i32)
define i32 @f() {
  br label %head
head:
  %count = phi i32 [ 0, %0 ], [ %more, %body ]
  %c = call i32 @getchar()
  %end = icmp slt i32 %c, 0
  br i1 %end, label %done, label %body
body:
  %from_a = sub i32 %c, 97
  %small = icmp ult i32 %from_a, 26
  %capital = xor i32 %c, 32
  %out = select i1 %small, i32 %capital, i32 %c
  %shown = call i32 @putchar(i32 %out)
  %more = add i32 %count, 1
  br label %head
done:
  ret i32 %count
}
