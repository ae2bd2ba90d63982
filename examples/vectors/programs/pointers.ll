; Pointers into one array compared, walked and turned back; null; pointers into two arrays.
@numbers = internal global [8 x i32] [i32 3, i32 1, i32 4, i32 1, i32 5, i32 9, i32 2, i32 6], align 16
@others = internal global [8 x i32] zeroinitializer, align 16

; Each predicate of two places is a bit: eq, ne, ult, ule, ugt, uge.
define i8 @compared(i64 %i, i64 %j) {
  %a = getelementptr inbounds [8 x i32], ptr @numbers, i64 0, i64 %i
  %b = getelementptr inbounds [8 x i32], ptr @numbers, i64 0, i64 %j
  %eq = icmp eq ptr %a, %b
  %ne = icmp ne ptr %a, %b
  %ult = icmp ult ptr %a, %b
  %ule = icmp ule ptr %a, %b
  %ugt = icmp ugt ptr %a, %b
  %uge = icmp uge ptr %a, %b
  %bit.0 = zext i1 %eq to i8
  %bit.1 = select i1 %ne, i8 2, i8 0
  %bit.2 = select i1 %ult, i8 4, i8 0
  %bit.3 = select i1 %ule, i8 8, i8 0
  %bit.4 = select i1 %ugt, i8 16, i8 0
  %bit.5 = select i1 %uge, i8 32, i8 0
  %or.1 = or i8 %bit.0, %bit.1
  %or.2 = or i8 %or.1, %bit.2
  %or.3 = or i8 %or.2, %bit.3
  %or.4 = or i8 %or.3, %bit.4
  %or.5 = or i8 %or.4, %bit.5
  ret i8 %or.5
}

; The sum of so many numbers, from the end of the array backwards.
define i32 @backwards(i64 %count) {
entry:
  %end = getelementptr inbounds [8 x i32], ptr @numbers, i64 1
  %back = sub nsw i64 0, %count
  %first = getelementptr inbounds i32, ptr %end, i64 %back
  br label %head
head:
  %at = phi ptr [ %end, %entry ], [ %before, %body ]
  %sum = phi i32 [ 0, %entry ], [ %more, %body ]
  %on = icmp ugt ptr %at, %first
  br i1 %on, label %body, label %done
body:
  %before = getelementptr inbounds i32, ptr %at, i64 -1
  %number = load i32, ptr %before, align 4
  %more = add nsw i32 %sum, %number
  br label %head
done:
  ret i32 %sum
}

; Whether what is chosen is null.
define i1 @is_null(i1 %no) {
  %slot = alloca ptr, align 8
  %chosen = select i1 %no, ptr null, ptr @numbers
  store ptr %chosen, ptr %slot, align 8
  %loaded = load ptr, ptr %slot, align 8
  %null = icmp eq ptr %loaded, null
  ret i1 %null
}

; Within two arrays no two places are one.
define i1 @apart(i64 %i, i64 %j) {
  %a = getelementptr inbounds [8 x i32], ptr @numbers, i64 0, i64 %i
  %b = getelementptr inbounds [8 x i32], ptr @others, i64 0, i64 %j
  %apart = icmp ne ptr %a, %b
  ret i1 %apart
}

; Adds a hundred to a number of one array or the other, and returns the sum of the two at that place.
define i32 @chosen(i1 %first, i64 %i) {
  %array = select i1 %first, ptr @numbers, ptr @others
  %at = getelementptr inbounds [8 x i32], ptr %array, i64 0, i64 %i
  %old = load i32, ptr %at, align 4
  %new = add nsw i32 %old, 100
  store i32 %new, ptr %at, align 4
  %a.at = getelementptr inbounds i32, ptr @numbers, i64 %i
  %b.at = getelementptr inbounds i32, ptr @others, i64 %i
  %a = load i32, ptr %a.at, align 4
  %b = load i32, ptr %b.at, align 4
  %sum = add nsw i32 %a, %b
  ret i32 %sum
}
