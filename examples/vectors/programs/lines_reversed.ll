; Writes each line of the input back to front, by a recursion that writes on its way back.
declare i32 @getchar()
declare i32 @putchar(i32)

; Whether the line had an end.
define internal i1 @backwards() {
entry:
  %c = call i32 @getchar()
  switch i32 %c, label %byte [
    i32 -1, label %stop
    i32 10, label %line
  ]
byte:
  %ended = call i1 @backwards()
  %shown = call i32 @putchar(i32 %c)
  ret i1 %ended
stop:
  ret i1 false
line:
  ret i1 true
}

define i32 @main() {
entry:
  br label %head
head:
  %lines = phi i32 [ 0, %entry ], [ %lines.next, %line ]
  %ended = call i1 @backwards()
  br i1 %ended, label %line, label %done
line:
  %shown = call i32 @putchar(i32 10)
  %lines.next = add nuw nsw i32 %lines, 1
  br label %head
done:
  ret i32 %lines
}
