; Division at 33 bits by shifts and subtractions; and whether it agrees with the instructions.
define internal i33 @divide(i33 %a, i33 %b, ptr %rest.at) {
entry:
  br label %head
head:
  %place = phi i33 [ 32, %entry ], [ %below, %next ]
  %quotient = phi i33 [ 0, %entry ], [ %quotient.next, %next ]
  %rest = phi i33 [ 0, %entry ], [ %rest.next, %next ]
  %lost = lshr i33 %rest, 32
  %over = trunc i33 %lost to i1
  %up = shl i33 %rest, 1
  %down = lshr i33 %a, %place
  %bit = and i33 %down, 1
  %longer = or i33 %up, %bit
  %large = icmp uge i33 %longer, %b
  %fits = or i1 %over, %large
  %doubled = shl i33 %quotient, 1
  br i1 %fits, label %take, label %next
take:
  %left = sub i33 %longer, %b
  %odd = or i33 %doubled, 1
  br label %next
next:
  %quotient.next = phi i33 [ %doubled, %head ], [ %odd, %take ]
  %rest.next = phi i33 [ %longer, %head ], [ %left, %take ]
  %below = add i33 %place, -1
  %on = icmp sge i33 %below, 0
  br i1 %on, label %head, label %done
done:
  %wide = zext i33 %rest.next to i64
  store i64 %wide, ptr %rest.at, align 8
  ret i33 %quotient.next
}

define i33 @quotient(i33 %a, i33 %b) {
  %rest = alloca i64, align 8
  %quotient = call i33 @divide(i33 %a, i33 %b, ptr %rest)
  ret i33 %quotient
}

define i33 @rest(i33 %a, i33 %b) {
  %slot = alloca i64, align 8
  %quotient = call i33 @divide(i33 %a, i33 %b, ptr %slot)
  %wide = load i64, ptr %slot, align 8
  %rest = trunc i64 %wide to i33
  ret i33 %rest
}

define i1 @agrees(i33 %a, i33 %b) {
  %quotient = call i33 @quotient(i33 %a, i33 %b)
  %rest = call i33 @rest(i33 %a, i33 %b)
  %q = udiv i33 %a, %b
  %r = urem i33 %a, %b
  %same.q = icmp eq i33 %quotient, %q
  %same.r = icmp eq i33 %rest, %r
  %same = and i1 %same.q, %same.r
  ret i1 %same
}
