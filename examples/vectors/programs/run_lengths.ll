; Writes each run of equal bytes of the input as the byte and a digit, runs of more than nine in parts; returns
; the number of parts.
declare i32 @getchar()
declare i32 @putchar(i32)

define i32 @main() {
entry:
  %first = call i32 @getchar()
  %empty = icmp eq i32 %first, -1
  br i1 %empty, label %nothing, label %begin
nothing:
  ret i32 0
begin:
  %parts = phi i32 [ 0, %entry ], [ %parts.next, %part ]
  %byte = phi i32 [ %first, %entry ], [ %c, %part ]
  br label %head
head:
  %length = phi i7 [ 1, %begin ], [ %longer, %same ]
  %c = call i32 @getchar()
  %equal = icmp eq i32 %c, %byte
  %short = icmp ult i7 %length, 9
  %on = select i1 %equal, i1 %short, i1 false
  br i1 %on, label %same, label %part
same:
  %longer = add nuw i7 %length, 1
  br label %head
part:
  %shown = call i32 @putchar(i32 %byte)
  %digit = zext i7 %length to i32
  %code = add nuw nsw i32 %digit, 48
  %counted = call i32 @putchar(i32 %code)
  %parts.next = add nuw nsw i32 %parts, 1
  %more = icmp sge i32 %c, 0
  br i1 %more, label %begin, label %done
done:
  ret i32 %parts.next
}
