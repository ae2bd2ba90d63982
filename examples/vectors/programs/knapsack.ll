; The most that a knapsack of some room can be worth, over a table of things with weight and worth.
%thing = type { i8, i16 }

@things = internal constant [5 x %thing] [%thing { i8 3, i16 40 }, %thing { i8 4, i16 50 }, %thing { i8 7, i16 95 }, %thing { i8 8, i16 110 }, %thing { i8 9, i16 120 }], align 2
@best = internal global [32 x i16] zeroinitializer, align 16

define i16 @worth(i64 %room) {
entry:
  br label %outer
outer:
  %k = phi i64 [ 0, %entry ], [ %k.next, %next ]
  %weight.at = getelementptr inbounds [5 x %thing], ptr @things, i64 0, i64 %k, i32 0
  %worth.at = getelementptr inbounds [5 x %thing], ptr @things, i64 0, i64 %k, i32 1
  %weight.byte = load i8, ptr %weight.at, align 2
  %weight = zext i8 %weight.byte to i64
  %worth = load i16, ptr %worth.at, align 2
  br label %inner
inner:
  %r = phi i64 [ %room, %outer ], [ %r.next, %better ]
  %fits = icmp uge i64 %r, %weight
  br i1 %fits, label %better, label %next
better:
  %rest = sub nuw nsw i64 %r, %weight
  %rest.at = getelementptr inbounds [32 x i16], ptr @best, i64 0, i64 %rest
  %r.at = getelementptr inbounds [32 x i16], ptr @best, i64 0, i64 %r
  %without = load i16, ptr %r.at, align 2
  %before = load i16, ptr %rest.at, align 2
  %with = add nuw nsw i16 %before, %worth
  %more = icmp ugt i16 %with, %without
  %most = select i1 %more, i16 %with, i16 %without
  store i16 %most, ptr %r.at, align 2
  %r.next = add nsw i64 %r, -1
  br label %inner
next:
  %k.next = add nuw nsw i64 %k, 1
  %on = icmp ult i64 %k.next, 5
  br i1 %on, label %outer, label %done
done:
  %answer.at = getelementptr inbounds [32 x i16], ptr @best, i64 0, i64 %room
  %answer = load i16, ptr %answer.at, align 2
  ret i16 %answer
}
