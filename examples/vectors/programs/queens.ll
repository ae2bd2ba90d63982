; In how many ways queens stand on a board of up to seven rows without a threat, by masks of seven bits.
define internal i32 @placed(i7 %all, i7 %columns, i7 %falling, i7 %rising) {
entry:
  %full = icmp eq i7 %columns, %all
  br i1 %full, label %found, label %look
found:
  ret i32 1
look:
  %a = or i7 %columns, %falling
  %threatened = or i7 %a, %rising
  %safe = xor i7 %threatened, -1
  %free = and i7 %safe, %all
  br label %head
head:
  %left = phi i7 [ %free, %look ], [ %rest, %body ]
  %sum = phi i32 [ 0, %look ], [ %more, %body ]
  %none = icmp eq i7 %left, 0
  br i1 %none, label %done, label %body
body:
  %opposite = sub i7 0, %left
  %one = and i7 %left, %opposite
  %rest = xor i7 %left, %one
  %columns.next = or i7 %columns, %one
  %f = or i7 %falling, %one
  %falling.next = lshr i7 %f, 1
  %r = or i7 %rising, %one
  %rising.next = shl i7 %r, 1
  %below = call i32 @placed(i7 %all, i7 %columns.next, i7 %falling.next, i7 %rising.next)
  %more = add nuw nsw i32 %sum, %below
  br label %head
done:
  ret i32 %sum
}

define i32 @queens(i8 %rows) {
  %places = zext i8 %rows to i33
  %power = shl i33 1, %places
  %mask = add i33 %power, -1
  %all = trunc i33 %mask to i7
  %ways = call i32 @placed(i7 %all, i7 0, i7 0, i7 0)
  ret i32 %ways
}
