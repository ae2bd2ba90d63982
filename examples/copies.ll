; A constant goes through copies and a phi of a loop to the call; what nobody needs goes. Returns 3.
target triple = "x86_64-pc-linux-gnu"

@count = internal global { i32, i8 } { i32 3, i8 7 }

declare i32 @putchar(i32)

define dso_local i32 @main(i32 noundef %n) local_unnamed_addr #0 {
entry:
  %letter = add i32 60, 5
  %copy = mul i32 %letter, 1
  %unused = xor i32 %n, %copy
  br label %loop

loop:
  %i = phi i32 [ %n, %entry ], [ %next, %loop ]
  %same = phi i32 [ %copy, %entry ], [ %same, %loop ]
  %next = add nsw i32 %i, -1
  %more = icmp sgt i32 %next, 0
  br i1 %more, label %loop, label %done

done:
  %written = call i32 @putchar(i32 %same)
  %start = load i32, ptr @count, align 4
  %sum = add i32 %start, 0
  ret i32 %sum
}

attributes #0 = { nounwind "frame-pointer"="all" }
