; A number in memory has its lowest byte first.
define i8 @byte(i64 %number, i64 %place) {
  %slot = alloca i64, align 8
  store i64 %number, ptr %slot, align 8
  %at = getelementptr inbounds i8, ptr %slot, i64 %place
  %byte = load i8, ptr %at, align 1
  ret i8 %byte
}

; The four bytes in its middle.
define i32 @middle(i64 %number) {
  %slot = alloca i64, align 8
  store i64 %number, ptr %slot, align 8
  %at = getelementptr inbounds i16, ptr %slot, i64 1
  %middle = load i32, ptr %at, align 2
  ret i32 %middle
}

; Its bytes the other way round.
define i64 @swapped(i64 %number) {
entry:
  %from = alloca i64, align 8
  %to = alloca [8 x i8], align 8
  store i64 %number, ptr %from, align 8
  br label %head
head:
  %i = phi i64 [ 0, %entry ], [ %next, %head ]
  %opposite = sub nuw nsw i64 7, %i
  %source = getelementptr inbounds i8, ptr %from, i64 %i
  %target = getelementptr inbounds [8 x i8], ptr %to, i64 0, i64 %opposite
  %byte = load i8, ptr %source, align 1
  store i8 %byte, ptr %target, align 1
  %next = add nuw nsw i64 %i, 1
  %on = icmp ne i64 %next, 8
  br i1 %on, label %head, label %done
done:
  %swapped = load i64, ptr %to, align 8
  ret i64 %swapped
}
