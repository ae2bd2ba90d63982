; Bits counted, mirrored and looked for, at 33 bits.
define i7 @ones(i33 %n) {
entry:
  %fixed = freeze i33 %n
  br label %head
head:
  %left = phi i33 [ %fixed, %entry ], [ %cleared, %body ]
  %count = phi i7 [ 0, %entry ], [ %more, %body ]
  %none = icmp eq i33 %left, 0
  br i1 %none, label %done, label %body
body:
  %less = add i33 %left, -1
  %cleared = and i33 %left, %less
  %more = add nuw nsw i7 %count, 1
  br label %head
done:
  ret i7 %count
}

define i33 @mirrored(i33 %n) {
entry:
  br label %head
head:
  %from = phi i33 [ %n, %entry ], [ %rest, %head ]
  %to = phi i33 [ 0, %entry ], [ %to.next, %head ]
  %turns = phi i8 [ 33, %entry ], [ %turns.next, %head ]
  %low = and i33 %from, 1
  %up = shl i33 %to, 1
  %to.next = or i33 %up, %low
  %rest = lshr i33 %from, 1
  %turns.next = add nsw i8 %turns, -1
  %on = icmp sgt i8 %turns.next, 0
  br i1 %on, label %head, label %done
done:
  ret i33 %to.next
}

; The place of the highest one, by halving; -1 of zero.
define i8 @highest(i33 %n) {
entry:
  %zero = icmp eq i33 %n, 0
  br i1 %zero, label %none, label %some
none:
  ret i8 -1
some:
  br label %head
head:
  %width = phi i33 [ 32, %some ], [ %half, %head ]
  %x = phi i33 [ %n, %some ], [ %x.next, %head ]
  %place = phi i33 [ 0, %some ], [ %place.next, %head ]
  %down = lshr i33 %x, %width
  %upper = icmp ne i33 %down, 0
  %x.next = select i1 %upper, i33 %down, i33 %x
  %step = select i1 %upper, i33 %width, i33 0
  %place.next = add nuw nsw i33 %place, %step
  %half = lshr i33 %width, 1
  %on = icmp ne i33 %half, 0
  br i1 %on, label %head, label %done
done:
  %answer = trunc i33 %place.next to i8
  ret i8 %answer
}
