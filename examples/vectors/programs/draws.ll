; Numbers drawn one after another: by shifts over a variable that keeps the state, and by a product at 33 bits.
@state = internal global i64 0, align 8

define internal i64 @next() {
  %a = load i64, ptr @state, align 8
  %a.down = lshr i64 %a, 12
  %b = xor i64 %a, %a.down
  %b.up = shl i64 %b, 25
  %c = xor i64 %b, %b.up
  %c.down = lshr i64 %c, 27
  %d = xor i64 %c, %c.down
  store i64 %d, ptr @state, align 8
  %drawn = mul i64 %d, 2685821657736338717
  ret i64 %drawn
}

define i64 @shifted(i64 %seed, i32 %count) {
entry:
  store i64 %seed, ptr @state, align 8
  br label %head
head:
  %i = phi i32 [ 0, %entry ], [ %more, %head ]
  %drawn = call i64 @next()
  %more = add nuw i32 %i, 1
  %on = icmp ult i32 %more, %count
  br i1 %on, label %head, label %done
done:
  ret i64 %drawn
}

define i33 @multiplied(i33 %seed, i8 %count) {
entry:
  br label %head
head:
  %x = phi i33 [ %seed, %entry ], [ %x.next, %body ]
  %left = phi i8 [ %count, %entry ], [ %less, %body ]
  %none = icmp eq i8 %left, 0
  br i1 %none, label %done, label %body
body:
  %product = mul i33 %x, 1103515245
  %x.next = add i33 %product, 12345
  %less = add i8 %left, -1
  br label %head
done:
  ret i33 %x
}
