; Writes a number in Roman numerals, by a table of values and strings, and returns how many letters that took.
@0 = private unnamed_addr constant [2 x i8] c"M\00", align 1
@1 = private unnamed_addr constant [3 x i8] c"CM\00", align 1
@2 = private unnamed_addr constant [2 x i8] c"D\00", align 1
@3 = private unnamed_addr constant [3 x i8] c"CD\00", align 1
@4 = private unnamed_addr constant [2 x i8] c"C\00", align 1
@5 = private unnamed_addr constant [3 x i8] c"XC\00", align 1
@6 = private unnamed_addr constant [2 x i8] c"L\00", align 1
@7 = private unnamed_addr constant [3 x i8] c"XL\00", align 1
@8 = private unnamed_addr constant [2 x i8] c"X\00", align 1
@9 = private unnamed_addr constant [3 x i8] c"IX\00", align 1
@10 = private unnamed_addr constant [2 x i8] c"V\00", align 1
@11 = private unnamed_addr constant [3 x i8] c"IV\00", align 1
@letters = internal constant [13 x { i16, ptr }] [{ i16, ptr } { i16 1000, ptr @0 }, { i16, ptr } { i16 900, ptr @1 }, { i16, ptr } { i16 500, ptr @2 }, { i16, ptr } { i16 400, ptr @3 }, { i16, ptr } { i16 100, ptr @4 }, { i16, ptr } { i16 90, ptr @5 }, { i16, ptr } { i16 50, ptr @6 }, { i16, ptr } { i16 40, ptr @7 }, { i16, ptr } { i16 10, ptr @8 }, { i16, ptr } { i16 9, ptr @9 }, { i16, ptr } { i16 5, ptr @10 }, { i16, ptr } { i16 4, ptr @11 }, { i16, ptr } { i16 1, ptr getelementptr inbounds ([3 x i8], ptr @9, i64 0, i64 2) }], align 16
@one = internal constant [2 x i8] c"I\00", align 1

declare i32 @putchar(i32)

define internal i32 @show(ptr %string) {
entry:
  br label %head
head:
  %i = phi i64 [ 0, %entry ], [ %next, %body ]
  %at = getelementptr inbounds i8, ptr %string, i64 %i
  %byte = load i8, ptr %at, align 1
  %end = icmp eq i8 %byte, 0
  br i1 %end, label %done, label %body
body:
  %code = zext i8 %byte to i32
  %shown = call i32 @putchar(i32 %code)
  %next = add nuw nsw i64 %i, 1
  br label %head
done:
  %length = trunc i64 %i to i32
  ret i32 %length
}

define i32 @roman(i16 %number) {
entry:
  br label %rows
rows:
  %k = phi i64 [ 0, %entry ], [ %k.next, %next ]
  %left = phi i16 [ %number, %entry ], [ %left.now, %next ]
  %count = phi i32 [ 0, %entry ], [ %count.now, %next ]
  %end = icmp eq i64 %k, 13
  br i1 %end, label %done, label %row
row:
  %row.at = getelementptr inbounds [13 x { i16, ptr }], ptr @letters, i64 0, i64 %k
  %value = load i16, ptr %row.at, align 8
  %string.at = getelementptr inbounds { i16, ptr }, ptr %row.at, i64 0, i32 1
  %string = load ptr, ptr %string.at, align 8
  %is.one = icmp eq i64 %k, 12
  %letters = select i1 %is.one, ptr @one, ptr %string
  br label %head
head:
  %left.now = phi i16 [ %left, %row ], [ %less, %body ]
  %count.now = phi i32 [ %count, %row ], [ %more, %body ]
  %fits = icmp uge i16 %left.now, %value
  br i1 %fits, label %body, label %next
body:
  %length = call i32 @show(ptr %letters)
  %less = sub nuw i16 %left.now, %value
  %more = add nuw nsw i32 %count.now, %length
  br label %head
next:
  %k.next = add nuw nsw i64 %k, 1
  br label %rows
done:
  ret i32 %count
}
