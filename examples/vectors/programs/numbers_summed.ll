; Sums the signed decimals of the input, which anything else keeps apart; writes the sum and returns how many
; there were. It goes between three states: between numbers, behind a sign, in a number.
declare i32 @getchar()
declare i32 @putchar(i32)

define internal void @show(i64 %n) {
entry:
  %negative = icmp slt i64 %n, 0
  br i1 %negative, label %sign, label %digits
sign:
  %minus = call i32 @putchar(i32 45)
  %positive = sub i64 0, %n
  br label %digits
digits:
  %size = phi i64 [ %n, %entry ], [ %positive, %sign ]
  %above = udiv i64 %size, 10
  %digit = urem i64 %size, 10
  %single = icmp eq i64 %above, 0
  br i1 %single, label %last, label %first
first:
  call void @show(i64 %above)
  br label %last
last:
  %short = trunc i64 %digit to i32
  %code = or i32 %short, 48
  %shown = call i32 @putchar(i32 %code)
  ret void
}

define i32 @main() {
entry:
  br label %head
head:
  %state = phi i8 [ 0, %entry ], [ 0, %apart ], [ 1, %minus ], [ 2, %digit ]
  %sum = phi i64 [ 0, %entry ], [ %sum.now, %apart ], [ %sum.now, %minus ], [ %sum, %digit ]
  %number = phi i64 [ 0, %entry ], [ 0, %apart ], [ 0, %minus ], [ %longer, %digit ]
  %negative = phi i1 [ false, %entry ], [ false, %apart ], [ true, %minus ], [ %negative, %digit ]
  %count = phi i32 [ 0, %entry ], [ %count.now, %apart ], [ %count.now, %minus ], [ %count, %digit ]
  %c = call i32 @getchar()
  %from.zero = sub i32 %c, 48
  %is.digit = icmp ult i32 %from.zero, 10
  br i1 %is.digit, label %digit, label %other
digit:
  %value = zext i32 %from.zero to i64
  %tens = mul i64 %number, 10
  %longer = add i64 %tens, %value
  br label %head
other:
  switch i8 %state, label %behind [
    i8 2, label %close
  ]
close:
  %opposite = sub i64 0, %number
  %signed = select i1 %negative, i64 %opposite, i64 %number
  %sum.close = add i64 %sum, %signed
  %count.close = add nuw i32 %count, 1
  br label %behind
behind:
  %sum.now = phi i64 [ %sum, %other ], [ %sum.close, %close ]
  %count.now = phi i32 [ %count, %other ], [ %count.close, %close ]
  switch i32 %c, label %apart [
    i32 -1, label %done
    i32 45, label %minus
  ]
minus:
  br label %head
apart:
  br label %head
done:
  call void @show(i64 %sum.now)
  ret i32 %count.now
}
