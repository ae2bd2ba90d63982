; An evaluator of whole-number expressions, one on a line: sums, differences, products, quotients and
; remainders with their usual strength, signs and parentheses, by recursive descent. Each line is answered
; with its value, or with a question mark where it is no expression or divides by zero.
; In the manner of clang 16 with -O0 -Xclang -disable-O0-optnone and names kept. Returns the number of
; lines that were answered with a question mark, here 4.
source_filename = "calculator.c"
target datalayout = "e-m:e-p270:32:32-p271:32:32-p272:64:64-i64:64-f80:128-n8:16:32:64-S128"
target triple = "x86_64-pc-linux-gnu"

@next = internal global i32 0, align 4
@wrong = internal global i8 0, align 1

; Takes the next character, blanks aside.
; Function Attrs: noinline nounwind uwtable
define internal void @advance() #0 {
entry:
  br label %do.body

do.body:                                          ; preds = %do.cond, %entry
  %call = call i32 @getchar()
  store i32 %call, ptr @next, align 4
  br label %do.cond

do.cond:                                          ; preds = %do.body
  %0 = load i32, ptr @next, align 4
  %cmp = icmp eq i32 %0, 32
  br i1 %cmp, label %do.body, label %do.end, !llvm.loop !6

do.end:                                           ; preds = %do.cond
  ret void
}

; Function Attrs: noinline nounwind uwtable
define internal zeroext i1 @is_digit(i32 noundef %c) #0 {
entry:
  %c.addr = alloca i32, align 4
  store i32 %c, ptr %c.addr, align 4
  %0 = load i32, ptr %c.addr, align 4
  %cmp = icmp sge i32 %0, 48
  br i1 %cmp, label %land.rhs, label %land.end

land.rhs:                                         ; preds = %entry
  %1 = load i32, ptr %c.addr, align 4
  %cmp1 = icmp sle i32 %1, 57
  br label %land.end

land.end:                                         ; preds = %land.rhs, %entry
  %2 = phi i1 [ false, %entry ], [ %cmp1, %land.rhs ]
  ret i1 %2
}

; A number, a sign with what it stands before, or an expression in parentheses.
; Function Attrs: noinline nounwind uwtable
define internal i64 @factor() #0 {
entry:
  %retval = alloca i64, align 8
  %value = alloca i64, align 8
  %0 = load i32, ptr @next, align 4
  %cmp = icmp eq i32 %0, 45
  br i1 %cmp, label %if.then, label %if.end

if.then:                                          ; preds = %entry
  call void @advance()
  %call = call i64 @factor()
  %sub = sub nsw i64 0, %call
  store i64 %sub, ptr %retval, align 8
  br label %return

if.end:                                           ; preds = %entry
  %1 = load i32, ptr @next, align 4
  %cmp1 = icmp eq i32 %1, 40
  br i1 %cmp1, label %if.then2, label %if.end8

if.then2:                                         ; preds = %if.end
  call void @advance()
  %call3 = call i64 @sum()
  store i64 %call3, ptr %value, align 8
  %2 = load i32, ptr @next, align 4
  %cmp4 = icmp eq i32 %2, 41
  br i1 %cmp4, label %if.then5, label %if.else

if.then5:                                         ; preds = %if.then2
  call void @advance()
  br label %if.end6

if.else:                                          ; preds = %if.then2
  store i8 1, ptr @wrong, align 1
  br label %if.end6

if.end6:                                          ; preds = %if.else, %if.then5
  %3 = load i64, ptr %value, align 8
  store i64 %3, ptr %retval, align 8
  br label %return

if.end8:                                          ; preds = %if.end
  %4 = load i32, ptr @next, align 4
  %call9 = call zeroext i1 @is_digit(i32 noundef %4)
  br i1 %call9, label %if.end11, label %if.then10

if.then10:                                        ; preds = %if.end8
  store i8 1, ptr @wrong, align 1
  br label %if.end11

if.end11:                                         ; preds = %if.then10, %if.end8
  store i64 0, ptr %value, align 8
  br label %while.cond

while.cond:                                       ; preds = %while.body, %if.end11
  %5 = load i32, ptr @next, align 4
  %call12 = call zeroext i1 @is_digit(i32 noundef %5)
  br i1 %call12, label %while.body, label %while.end

while.body:                                       ; preds = %while.cond
  %6 = load i64, ptr %value, align 8
  %mul = mul nsw i64 %6, 10
  %7 = load i32, ptr @next, align 4
  %sub13 = sub nsw i32 %7, 48
  %conv = sext i32 %sub13 to i64
  %add = add nsw i64 %mul, %conv
  store i64 %add, ptr %value, align 8
  call void @advance()
  br label %while.cond, !llvm.loop !8

while.end:                                        ; preds = %while.cond
  %8 = load i64, ptr %value, align 8
  store i64 %8, ptr %retval, align 8
  br label %return

return:                                           ; preds = %while.end, %if.end6, %if.then
  %9 = load i64, ptr %retval, align 8
  ret i64 %9
}

; Factors with signs of multiplication, division and remainder between.
; Function Attrs: noinline nounwind uwtable
define internal i64 @product() #0 {
entry:
  %value = alloca i64, align 8
  %sign = alloca i32, align 4
  %right = alloca i64, align 8
  %call = call i64 @factor()
  store i64 %call, ptr %value, align 8
  br label %while.cond

while.cond:                                       ; preds = %sw.epilog, %entry
  %0 = load i32, ptr @next, align 4
  store i32 %0, ptr %sign, align 4
  %1 = load i32, ptr %sign, align 4
  switch i32 %1, label %while.end [
    i32 42, label %while.body
    i32 47, label %while.body
    i32 37, label %while.body
  ]

while.body:                                       ; preds = %while.cond, %while.cond, %while.cond
  call void @advance()
  %call1 = call i64 @factor()
  store i64 %call1, ptr %right, align 8
  %2 = load i32, ptr %sign, align 4
  %cmp = icmp eq i32 %2, 42
  br i1 %cmp, label %if.then, label %if.else

if.then:                                          ; preds = %while.body
  %3 = load i64, ptr %value, align 8
  %4 = load i64, ptr %right, align 8
  %mul = mul nsw i64 %3, %4
  store i64 %mul, ptr %value, align 8
  br label %sw.epilog

if.else:                                          ; preds = %while.body
  %5 = load i64, ptr %right, align 8
  %cmp2 = icmp eq i64 %5, 0
  br i1 %cmp2, label %if.then3, label %if.else4

if.then3:                                         ; preds = %if.else
  store i8 1, ptr @wrong, align 1
  br label %sw.epilog

if.else4:                                         ; preds = %if.else
  %6 = load i32, ptr %sign, align 4
  switch i32 %6, label %sw.default [
    i32 47, label %sw.bb
    i32 37, label %sw.bb5
  ]

sw.bb:                                            ; preds = %if.else4
  %7 = load i64, ptr %right, align 8
  %8 = load i64, ptr %value, align 8
  %div = sdiv i64 %8, %7
  store i64 %div, ptr %value, align 8
  br label %sw.epilog

sw.bb5:                                           ; preds = %if.else4
  %9 = load i64, ptr %right, align 8
  %10 = load i64, ptr %value, align 8
  %rem = srem i64 %10, %9
  store i64 %rem, ptr %value, align 8
  br label %sw.epilog

sw.default:                                       ; preds = %if.else4
  unreachable

sw.epilog:                                        ; preds = %sw.bb5, %sw.bb, %if.then3, %if.then
  br label %while.cond, !llvm.loop !9

while.end:                                        ; preds = %while.cond
  %11 = load i64, ptr %value, align 8
  ret i64 %11
}

; Products with plus and minus between.
; Function Attrs: noinline nounwind uwtable
define internal i64 @sum() #0 {
entry:
  %value = alloca i64, align 8
  %call = call i64 @product()
  store i64 %call, ptr %value, align 8
  br label %while.cond

while.cond:                                       ; preds = %if.end, %entry
  %0 = load i32, ptr @next, align 4
  %cmp = icmp eq i32 %0, 43
  br i1 %cmp, label %lor.end, label %lor.rhs

lor.rhs:                                          ; preds = %while.cond
  %1 = load i32, ptr @next, align 4
  %cmp1 = icmp eq i32 %1, 45
  br label %lor.end

lor.end:                                          ; preds = %lor.rhs, %while.cond
  %2 = phi i1 [ true, %while.cond ], [ %cmp1, %lor.rhs ]
  br i1 %2, label %while.body, label %while.end

while.body:                                       ; preds = %lor.end
  %3 = load i32, ptr @next, align 4
  %cmp2 = icmp eq i32 %3, 43
  call void @advance()
  %call3 = call i64 @product()
  br i1 %cmp2, label %if.then, label %if.else

if.then:                                          ; preds = %while.body
  %4 = load i64, ptr %value, align 8
  %add = add nsw i64 %4, %call3
  store i64 %add, ptr %value, align 8
  br label %if.end

if.else:                                          ; preds = %while.body
  %5 = load i64, ptr %value, align 8
  %sub = sub nsw i64 %5, %call3
  store i64 %sub, ptr %value, align 8
  br label %if.end

if.end:                                           ; preds = %if.else, %if.then
  br label %while.cond, !llvm.loop !10

while.end:                                        ; preds = %lor.end
  %6 = load i64, ptr %value, align 8
  ret i64 %6
}

; Function Attrs: noinline nounwind uwtable
define internal void @write_number(i64 noundef %n) #0 {
entry:
  %n.addr = alloca i64, align 8
  store i64 %n, ptr %n.addr, align 8
  %0 = load i64, ptr %n.addr, align 8
  %cmp = icmp slt i64 %0, 0
  br i1 %cmp, label %if.then, label %if.end

if.then:                                          ; preds = %entry
  %call = call i32 @putchar(i32 noundef 45)
  %1 = load i64, ptr %n.addr, align 8
  %sub = sub nsw i64 0, %1
  store i64 %sub, ptr %n.addr, align 8
  br label %if.end

if.end:                                           ; preds = %if.then, %entry
  %2 = load i64, ptr %n.addr, align 8
  %cmp1 = icmp sgt i64 %2, 9
  br i1 %cmp1, label %if.then2, label %if.end3

if.then2:                                         ; preds = %if.end
  %3 = load i64, ptr %n.addr, align 8
  %div = sdiv i64 %3, 10
  call void @write_number(i64 noundef %div)
  br label %if.end3

if.end3:                                          ; preds = %if.then2, %if.end
  %4 = load i64, ptr %n.addr, align 8
  %rem = srem i64 %4, 10
  %add = add nsw i64 48, %rem
  %conv = trunc i64 %add to i32
  %call4 = call i32 @putchar(i32 noundef %conv)
  ret void
}

; Function Attrs: noinline nounwind uwtable
define dso_local i32 @main() #0 {
entry:
  %retval = alloca i32, align 4
  %count = alloca i32, align 4
  %value = alloca i64, align 8
  store i32 0, ptr %retval, align 4
  store i32 0, ptr %count, align 4
  call void @advance()
  br label %while.cond

while.cond:                                       ; preds = %if.end10, %entry
  %0 = load i32, ptr @next, align 4
  %cmp = icmp ne i32 %0, -1
  br i1 %cmp, label %while.body, label %while.end12

while.body:                                       ; preds = %while.cond
  store i8 0, ptr @wrong, align 1
  %call = call i64 @sum()
  store i64 %call, ptr %value, align 8
  br label %while.cond1

while.cond1:                                      ; preds = %while.body5, %while.body
  %1 = load i32, ptr @next, align 4
  %cmp2 = icmp ne i32 %1, 10
  br i1 %cmp2, label %land.rhs, label %land.end

land.rhs:                                         ; preds = %while.cond1
  %2 = load i32, ptr @next, align 4
  %cmp3 = icmp ne i32 %2, -1
  br label %land.end

land.end:                                         ; preds = %land.rhs, %while.cond1
  %3 = phi i1 [ false, %while.cond1 ], [ %cmp3, %land.rhs ]
  br i1 %3, label %while.body5, label %while.end

while.body5:                                      ; preds = %land.end
  store i8 1, ptr @wrong, align 1
  call void @advance()
  br label %while.cond1, !llvm.loop !11

while.end:                                        ; preds = %land.end
  %4 = load i8, ptr @wrong, align 1
  %tobool = trunc i8 %4 to i1
  br i1 %tobool, label %if.then, label %if.else

if.then:                                          ; preds = %while.end
  %call6 = call i32 @putchar(i32 noundef 63)
  %5 = load i32, ptr %count, align 4
  %inc = add nsw i32 %5, 1
  store i32 %inc, ptr %count, align 4
  br label %if.end

if.else:                                          ; preds = %while.end
  %6 = load i64, ptr %value, align 8
  call void @write_number(i64 noundef %6)
  br label %if.end

if.end:                                           ; preds = %if.else, %if.then
  %call7 = call i32 @putchar(i32 noundef 10)
  %7 = load i32, ptr @next, align 4
  %cmp8 = icmp eq i32 %7, 10
  br i1 %cmp8, label %if.then9, label %if.end10

if.then9:                                         ; preds = %if.end
  call void @advance()
  br label %if.end10

if.end10:                                         ; preds = %if.then9, %if.end
  br label %while.cond, !llvm.loop !12

while.end12:                                      ; preds = %while.cond
  %8 = load i32, ptr %count, align 4
  ret i32 %8
}

declare i32 @getchar() #1

declare i32 @putchar(i32 noundef) #1

attributes #0 = { noinline nounwind uwtable "frame-pointer"="all" "min-legal-vector-width"="0" "no-trapping-math"="true" "stack-protector-buffer-size"="8" "target-cpu"="x86-64" "target-features"="+cx8,+fxsr,+mmx,+sse,+sse2,+x87" "tune-cpu"="generic" }
attributes #1 = { "frame-pointer"="all" "no-trapping-math"="true" "stack-protector-buffer-size"="8" "target-cpu"="x86-64" "target-features"="+cx8,+fxsr,+mmx,+sse,+sse2,+x87" "tune-cpu"="generic" }

!llvm.module.flags = !{!0, !1, !2, !3, !4}
!llvm.ident = !{!5}

!0 = !{i32 1, !"wchar_size", i32 4}
!1 = !{i32 8, !"PIC Level", i32 2}
!2 = !{i32 7, !"PIE Level", i32 2}
!3 = !{i32 7, !"uwtable", i32 2}
!4 = !{i32 7, !"frame-pointer", i32 2}
!5 = !{!"clang version 16.0.6"}
!6 = distinct !{!6, !7}
!7 = !{!"llvm.loop.mustprogress"}
!8 = distinct !{!8, !7}
!9 = distinct !{!9, !7}
!10 = distinct !{!10, !7}
!11 = distinct !{!11, !7}
!12 = distinct !{!12, !7}
