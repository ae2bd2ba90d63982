; Truth values in bytes, short circuits, narrow parameters with their extensions, and a loop that is left in
; the middle: which numbers below 60 are the sum of two squares, as a row of bars and dots.
; In the manner of clang 19 -O0 with names kept. Returns 28.
; ModuleID = 'named_slots.c'
source_filename = "named_slots.c"
target datalayout = "e-m:e-p270:32:32-p271:32:32-p272:64:64-i64:64-i128:128-f80:128-n8:16:32:64-S128"
target triple = "x86_64-pc-linux-gnu"

@verbose = internal global i8 1, align 1

; Function Attrs: noinline nounwind optnone uwtable
define internal zeroext i1 @is_square(i16 noundef signext %n) #0 {
entry:
  %n.addr = alloca i16, align 2
  %root = alloca i16, align 2
  %found = alloca i8, align 1
  store i16 %n, ptr %n.addr, align 2
  store i8 0, ptr %found, align 1
  store i16 0, ptr %root, align 2
  br label %for.cond

for.cond:                                         ; preds = %for.inc, %entry
  %0 = load i16, ptr %root, align 2
  %conv = sext i16 %0 to i32
  %1 = load i16, ptr %root, align 2
  %conv1 = sext i16 %1 to i32
  %mul = mul nsw i32 %conv, %conv1
  %2 = load i16, ptr %n.addr, align 2
  %conv2 = sext i16 %2 to i32
  %cmp = icmp sle i32 %mul, %conv2
  br i1 %cmp, label %for.body, label %for.end

for.body:                                         ; preds = %for.cond
  %3 = load i16, ptr %root, align 2
  %conv4 = sext i16 %3 to i32
  %4 = load i16, ptr %root, align 2
  %conv5 = sext i16 %4 to i32
  %mul6 = mul nsw i32 %conv4, %conv5
  %5 = load i16, ptr %n.addr, align 2
  %conv7 = sext i16 %5 to i32
  %cmp8 = icmp eq i32 %mul6, %conv7
  br i1 %cmp8, label %if.then, label %if.end

if.then:                                          ; preds = %for.body
  store i8 1, ptr %found, align 1
  br label %for.end

if.end:                                           ; preds = %for.body
  br label %for.inc

for.inc:                                          ; preds = %if.end
  %6 = load i16, ptr %root, align 2
  %inc = add i16 %6, 1
  store i16 %inc, ptr %root, align 2
  br label %for.cond, !llvm.loop !6

for.end:                                          ; preds = %if.then, %for.cond
  %7 = load i8, ptr %found, align 1
  %tobool = trunc i8 %7 to i1
  ret i1 %tobool
}

; Function Attrs: noinline nounwind optnone uwtable
define internal zeroext i1 @is_sum(i16 noundef signext %n) #0 {
entry:
  %n.addr = alloca i16, align 2
  %part = alloca i16, align 2
  %both = alloca i8, align 1
  store i16 %n, ptr %n.addr, align 2
  store i8 0, ptr %both, align 1
  store i16 0, ptr %part, align 2
  br label %while.cond

while.cond:                                       ; preds = %land.end8, %entry
  %0 = load i16, ptr %part, align 2
  %conv = sext i16 %0 to i32
  %1 = load i16, ptr %n.addr, align 2
  %conv1 = sext i16 %1 to i32
  %cmp = icmp sle i32 %conv, %conv1
  br i1 %cmp, label %land.rhs, label %land.end

land.rhs:                                         ; preds = %while.cond
  %2 = load i8, ptr %both, align 1
  %tobool = trunc i8 %2 to i1
  %lnot = xor i1 %tobool, true
  br label %land.end

land.end:                                         ; preds = %land.rhs, %while.cond
  %3 = phi i1 [ false, %while.cond ], [ %lnot, %land.rhs ]
  br i1 %3, label %while.body, label %while.end

while.body:                                       ; preds = %land.end
  %4 = load i16, ptr %part, align 2
  %call = call zeroext i1 @is_square(i16 noundef signext %4)
  br i1 %call, label %land.rhs3, label %land.end8

land.rhs3:                                        ; preds = %while.body
  %5 = load i16, ptr %n.addr, align 2
  %conv4 = sext i16 %5 to i32
  %6 = load i16, ptr %part, align 2
  %conv5 = sext i16 %6 to i32
  %sub = sub nsw i32 %conv4, %conv5
  %conv6 = trunc i32 %sub to i16
  %call7 = call zeroext i1 @is_square(i16 noundef signext %conv6)
  br label %land.end8

land.end8:                                        ; preds = %land.rhs3, %while.body
  %7 = phi i1 [ false, %while.body ], [ %call7, %land.rhs3 ]
  %frombool = zext i1 %7 to i8
  store i8 %frombool, ptr %both, align 1
  %8 = load i16, ptr %part, align 2
  %inc = add i16 %8, 1
  store i16 %inc, ptr %part, align 2
  br label %while.cond, !llvm.loop !8

while.end:                                        ; preds = %land.end
  %9 = load i8, ptr %both, align 1
  %tobool9 = trunc i8 %9 to i1
  ret i1 %tobool9
}

; Function Attrs: noinline nounwind optnone uwtable
define dso_local i32 @main() #0 {
entry:
  %retval = alloca i32, align 4
  %count = alloca i32, align 4
  %n = alloca i16, align 2
  %sum = alloca i8, align 1
  store i32 0, ptr %retval, align 4
  store i32 0, ptr %count, align 4
  store i16 0, ptr %n, align 2
  br label %do.body

do.body:                                          ; preds = %do.cond, %entry
  %0 = load i16, ptr %n, align 2
  %call = call zeroext i1 @is_sum(i16 noundef signext %0)
  %frombool = zext i1 %call to i8
  store i8 %frombool, ptr %sum, align 1
  %1 = load i8, ptr @verbose, align 1
  %tobool = trunc i8 %1 to i1
  br i1 %tobool, label %if.then, label %if.end

if.then:                                          ; preds = %do.body
  %2 = load i8, ptr %sum, align 1
  %tobool1 = trunc i8 %2 to i1
  %3 = zext i1 %tobool1 to i64
  %cond = select i1 %tobool1, i32 124, i32 46
  %call2 = call i32 @putchar(i32 noundef %cond)
  br label %if.end

if.end:                                           ; preds = %if.then, %do.body
  %4 = load i8, ptr %sum, align 1
  %tobool3 = trunc i8 %4 to i1
  %conv = zext i1 %tobool3 to i32
  %5 = load i32, ptr %count, align 4
  %add = add nsw i32 %5, %conv
  store i32 %add, ptr %count, align 4
  br label %do.cond

do.cond:                                          ; preds = %if.end
  %6 = load i16, ptr %n, align 2
  %inc = add i16 %6, 1
  store i16 %inc, ptr %n, align 2
  %conv4 = sext i16 %inc to i32
  %cmp = icmp slt i32 %conv4, 60
  br i1 %cmp, label %do.body, label %do.end, !llvm.loop !9

do.end:                                           ; preds = %do.cond
  %7 = load i32, ptr %count, align 4
  ret i32 %7
}

declare i32 @putchar(i32 noundef) #1

attributes #0 = { noinline nounwind optnone uwtable "frame-pointer"="all" "min-legal-vector-width"="0" "no-trapping-math"="true" "stack-protector-buffer-size"="8" "target-cpu"="x86-64" "target-features"="+cmov,+cx8,+fxsr,+mmx,+sse,+sse2,+x87" "tune-cpu"="generic" }
attributes #1 = { "frame-pointer"="all" "no-trapping-math"="true" "stack-protector-buffer-size"="8" "target-cpu"="x86-64" "target-features"="+cmov,+cx8,+fxsr,+mmx,+sse,+sse2,+x87" "tune-cpu"="generic" }

!llvm.module.flags = !{!0, !1, !2, !3, !4}
!llvm.ident = !{!5}

!0 = !{i32 1, !"wchar_size", i32 4}
!1 = !{i32 8, !"PIC Level", i32 2}
!2 = !{i32 7, !"PIE Level", i32 2}
!3 = !{i32 7, !"uwtable", i32 2}
!4 = !{i32 7, !"frame-pointer", i32 2}
!5 = !{!"clang version 19.1.7"}
!6 = distinct !{!6, !7}
!7 = !{!"llvm.loop.mustprogress"}
!8 = distinct !{!8, !7}
!9 = distinct !{!9, !7}
