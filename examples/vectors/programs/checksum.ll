; CRC-32 of the input, bit by bit.
declare i32 @getchar()

define i32 @main() {
entry:
  br label %head
head:
  %crc = phi i32 [ -1, %entry ], [ %x.next, %bits ]
  %c = call i32 @getchar()
  %end = icmp slt i32 %c, 0
  br i1 %end, label %done, label %byte
byte:
  %mixed = xor i32 %crc, %c
  br label %bits
bits:
  %turn = phi i8 [ 0, %byte ], [ %turn.next, %bits ]
  %x = phi i32 [ %mixed, %byte ], [ %x.next, %bits ]
  %low = trunc i32 %x to i1
  %half = lshr i32 %x, 1
  %other = xor i32 %half, 3988292384
  %x.next = select i1 %low, i32 %other, i32 %half
  %turn.next = add nuw nsw i8 %turn, 1
  %on = icmp ult i8 %turn.next, 8
  br i1 %on, label %bits, label %head
done:
  %answer = xor i32 %crc, -1
  ret i32 %answer
}
