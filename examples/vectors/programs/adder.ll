; Sums at 33 bits by a chain of full adders, each of them operations on single bits; and the last carry.
define i33 @sum(i33 %a, i33 %b) {
entry:
  br label %head
head:
  %place = phi i33 [ 0, %entry ], [ %above, %head ]
  %carry = phi i1 [ false, %entry ], [ %out, %head ]
  %sum = phi i33 [ 0, %entry ], [ %more, %head ]
  %a.down = lshr i33 %a, %place
  %b.down = lshr i33 %b, %place
  %x = trunc i33 %a.down to i1
  %y = trunc i33 %b.down to i1
  %half = xor i1 %x, %y
  %bit = xor i1 %half, %carry
  %both = and i1 %x, %y
  %passed = and i1 %half, %carry
  %out = or i1 %both, %passed
  %wide = zext i1 %bit to i33
  %up = shl i33 %wide, %place
  %more = or i33 %sum, %up
  %above = add nuw i33 %place, 1
  %end = icmp eq i33 %above, 33
  br i1 %end, label %done, label %head
done:
  ret i33 %more
}

define i1 @carry(i33 %a, i33 %b) {
  %sum = call i33 @sum(i33 %a, i33 %b)
  %less = icmp ult i33 %sum, %a
  ret i1 %less
}
