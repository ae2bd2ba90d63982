; Writes its input in Morse code and reads it back: the code of each line on a line, letters apart by a
; blank and words by a stroke, and behind it the line that is read from this code by a look-up in the same
; tables of strings. Characters without a code are left out.
; In the manner of clang 16 with -O0 -Xclang -disable-O0-optnone. Returns the number of codes, here 37.
source_filename = "morse.c"
target datalayout = "e-m:e-p270:32:32-p271:32:32-p272:64:64-i64:64-f80:128-n8:16:32:64-S128"
target triple = "x86_64-pc-linux-gnu"

@.str = private unnamed_addr constant [3 x i8] c".-\00", align 1
@.str.1 = private unnamed_addr constant [5 x i8] c"-...\00", align 1
@.str.2 = private unnamed_addr constant [5 x i8] c"-.-.\00", align 1
@.str.3 = private unnamed_addr constant [4 x i8] c"-..\00", align 1
@.str.4 = private unnamed_addr constant [2 x i8] c".\00", align 1
@.str.5 = private unnamed_addr constant [5 x i8] c"..-.\00", align 1
@.str.6 = private unnamed_addr constant [4 x i8] c"--.\00", align 1
@.str.7 = private unnamed_addr constant [5 x i8] c"....\00", align 1
@.str.8 = private unnamed_addr constant [3 x i8] c"..\00", align 1
@.str.9 = private unnamed_addr constant [5 x i8] c".---\00", align 1
@.str.10 = private unnamed_addr constant [4 x i8] c"-.-\00", align 1
@.str.11 = private unnamed_addr constant [5 x i8] c".-..\00", align 1
@.str.12 = private unnamed_addr constant [3 x i8] c"--\00", align 1
@.str.13 = private unnamed_addr constant [3 x i8] c"-.\00", align 1
@.str.14 = private unnamed_addr constant [4 x i8] c"---\00", align 1
@.str.15 = private unnamed_addr constant [5 x i8] c".--.\00", align 1
@.str.16 = private unnamed_addr constant [5 x i8] c"--.-\00", align 1
@.str.17 = private unnamed_addr constant [4 x i8] c".-.\00", align 1
@.str.18 = private unnamed_addr constant [4 x i8] c"...\00", align 1
@.str.19 = private unnamed_addr constant [2 x i8] c"-\00", align 1
@.str.20 = private unnamed_addr constant [4 x i8] c"..-\00", align 1
@.str.21 = private unnamed_addr constant [5 x i8] c"...-\00", align 1
@.str.22 = private unnamed_addr constant [4 x i8] c".--\00", align 1
@.str.23 = private unnamed_addr constant [5 x i8] c"-..-\00", align 1
@.str.24 = private unnamed_addr constant [5 x i8] c"-.--\00", align 1
@.str.25 = private unnamed_addr constant [5 x i8] c"--..\00", align 1
@.str.26 = private unnamed_addr constant [6 x i8] c"-----\00", align 1
@.str.27 = private unnamed_addr constant [6 x i8] c".----\00", align 1
@.str.28 = private unnamed_addr constant [6 x i8] c"..---\00", align 1
@.str.29 = private unnamed_addr constant [6 x i8] c"...--\00", align 1
@.str.30 = private unnamed_addr constant [6 x i8] c"....-\00", align 1
@.str.31 = private unnamed_addr constant [6 x i8] c".....\00", align 1
@.str.32 = private unnamed_addr constant [6 x i8] c"-....\00", align 1
@.str.33 = private unnamed_addr constant [6 x i8] c"--...\00", align 1
@.str.34 = private unnamed_addr constant [6 x i8] c"---..\00", align 1
@.str.35 = private unnamed_addr constant [6 x i8] c"----.\00", align 1
@letters = internal constant [26 x ptr] [ptr @.str, ptr @.str.1, ptr @.str.2, ptr @.str.3, ptr @.str.4, ptr @.str.5, ptr @.str.6, ptr @.str.7, ptr @.str.8, ptr @.str.9, ptr @.str.10, ptr @.str.11, ptr @.str.12, ptr @.str.13, ptr @.str.14, ptr @.str.15, ptr @.str.16, ptr @.str.17, ptr @.str.18, ptr @.str.19, ptr @.str.20, ptr @.str.21, ptr @.str.22, ptr @.str.23, ptr @.str.24, ptr @.str.25], align 16
@digits = internal constant [10 x ptr] [ptr @.str.26, ptr @.str.27, ptr @.str.28, ptr @.str.29, ptr @.str.30, ptr @.str.31, ptr @.str.32, ptr @.str.33, ptr @.str.34, ptr @.str.35], align 16
@line = internal global [256 x i8] zeroinitializer, align 16
@coded = internal global { i32, [1024 x i8] } zeroinitializer, align 4

; Reads a line, up to its end or that of the input; says whether there was one.
; Function Attrs: noinline nounwind uwtable
define internal i32 @read_line() #0 {
  %1 = alloca i32, align 4
  %2 = alloca i32, align 4
  %3 = alloca i32, align 4
  store i32 0, ptr %2, align 4
  br label %4

4:                                                ; preds = %24, %0
  %5 = call i32 @getchar()
  store i32 %5, ptr %3, align 4
  %6 = load i32, ptr %3, align 4
  %7 = icmp eq i32 %6, -1
  br i1 %7, label %8, label %12

8:                                                ; preds = %4
  %9 = load i32, ptr %2, align 4
  %10 = icmp sgt i32 %9, 0
  %11 = zext i1 %10 to i32
  store i32 %11, ptr %1, align 4
  br label %25

12:                                               ; preds = %4
  %13 = load i32, ptr %3, align 4
  %14 = icmp eq i32 %13, 10
  br i1 %14, label %15, label %16

15:                                               ; preds = %12
  store i32 1, ptr %1, align 4
  br label %25

16:                                               ; preds = %12
  %17 = load i32, ptr %2, align 4
  %18 = icmp slt i32 %17, 255
  br i1 %18, label %19, label %24

19:                                               ; preds = %16
  %20 = load i32, ptr %3, align 4
  %21 = trunc i32 %20 to i8
  %22 = load i32, ptr %2, align 4
  %23 = add nsw i32 %22, 1
  store i32 %23, ptr %2, align 4
  call void @put_in_line(i32 noundef %22, i8 noundef signext %21)
  br label %24

24:                                               ; preds = %19, %16
  br label %4, !llvm.loop !6

25:                                               ; preds = %15, %8
  %26 = load i32, ptr %2, align 4
  call void @put_in_line(i32 noundef %26, i8 noundef signext 0)
  %27 = load i32, ptr %1, align 4
  ret i32 %27
}

; Function Attrs: noinline nounwind uwtable
define internal void @put_in_line(i32 noundef %0, i8 noundef signext %1) #0 {
  %3 = alloca i32, align 4
  %4 = alloca i8, align 1
  store i32 %0, ptr %3, align 4
  store i8 %1, ptr %4, align 1
  %5 = load i8, ptr %4, align 1
  %6 = load i32, ptr %3, align 4
  %7 = sext i32 %6 to i64
  %8 = getelementptr inbounds [256 x i8], ptr @line, i64 0, i64 %7
  store i8 %5, ptr %8, align 1
  ret void
}

; The code of a character, or null.
; Function Attrs: noinline nounwind uwtable
define internal ptr @code_of(i8 noundef signext %0) #0 {
  %2 = alloca ptr, align 8
  %3 = alloca i8, align 1
  %4 = alloca i32, align 4
  store i8 %0, ptr %3, align 1
  %5 = load i8, ptr %3, align 1
  %6 = sext i8 %5 to i32
  store i32 %6, ptr %4, align 4
  %7 = load i32, ptr %4, align 4
  %8 = icmp sge i32 %7, 97
  br i1 %8, label %9, label %15

9:                                                ; preds = %1
  %10 = load i32, ptr %4, align 4
  %11 = icmp sle i32 %10, 122
  br i1 %11, label %12, label %15

12:                                               ; preds = %9
  %13 = load i32, ptr %4, align 4
  %14 = sub nsw i32 %13, 32
  store i32 %14, ptr %4, align 4
  br label %15

15:                                               ; preds = %12, %9, %1
  %16 = load i32, ptr %4, align 4
  %17 = icmp sge i32 %16, 65
  br i1 %17, label %18, label %27

18:                                               ; preds = %15
  %19 = load i32, ptr %4, align 4
  %20 = icmp sle i32 %19, 90
  br i1 %20, label %21, label %27

21:                                               ; preds = %18
  %22 = load i32, ptr %4, align 4
  %23 = sub nsw i32 %22, 65
  %24 = sext i32 %23 to i64
  %25 = getelementptr inbounds [26 x ptr], ptr @letters, i64 0, i64 %24
  %26 = load ptr, ptr %25, align 8
  store ptr %26, ptr %2, align 8
  br label %40

27:                                               ; preds = %18, %15
  %28 = load i32, ptr %4, align 4
  %29 = icmp sge i32 %28, 48
  br i1 %29, label %30, label %39

30:                                               ; preds = %27
  %31 = load i32, ptr %4, align 4
  %32 = icmp sle i32 %31, 57
  br i1 %32, label %33, label %39

33:                                               ; preds = %30
  %34 = load i32, ptr %4, align 4
  %35 = sub nsw i32 %34, 48
  %36 = sext i32 %35 to i64
  %37 = getelementptr inbounds [10 x ptr], ptr @digits, i64 0, i64 %36
  %38 = load ptr, ptr %37, align 8
  store ptr %38, ptr %2, align 8
  br label %40

39:                                               ; preds = %30, %27
  store ptr null, ptr %2, align 8
  br label %40

40:                                               ; preds = %39, %33, %21
  %41 = load ptr, ptr %2, align 8
  ret ptr %41
}

; Puts a character behind the code of the line.
; Function Attrs: noinline nounwind uwtable
define internal void @append(i8 noundef signext %0) #0 {
  %2 = alloca i8, align 1
  store i8 %0, ptr %2, align 1
  %3 = load i32, ptr @coded, align 4
  %4 = icmp slt i32 %3, 1023
  br i1 %4, label %5, label %11

5:                                                ; preds = %1
  %6 = load i8, ptr %2, align 1
  %7 = load i32, ptr @coded, align 4
  %8 = add nsw i32 %7, 1
  store i32 %8, ptr @coded, align 4
  %9 = sext i32 %7 to i64
  %10 = getelementptr inbounds [1024 x i8], ptr getelementptr inbounds ({ i32, [1024 x i8] }, ptr @coded, i32 0, i32 1), i64 0, i64 %9
  store i8 %6, ptr %10, align 1
  br label %11

11:                                               ; preds = %5, %1
  ret void
}

; Codes the line; gives the number of codes.
; Function Attrs: noinline nounwind uwtable
define internal i32 @encode() #0 {
  %1 = alloca i32, align 4
  %2 = alloca ptr, align 8
  %3 = alloca ptr, align 8
  store i32 0, ptr %1, align 4
  store i32 0, ptr @coded, align 4
  store ptr @line, ptr %2, align 8
  br label %4

4:                                                ; preds = %32, %0
  %5 = load ptr, ptr %2, align 8
  %6 = load i8, ptr %5, align 1
  %7 = icmp ne i8 %6, 0
  br i1 %7, label %8, label %35

8:                                                ; preds = %4
  %9 = load ptr, ptr %2, align 8
  %10 = load i8, ptr %9, align 1
  %11 = sext i8 %10 to i32
  %12 = icmp eq i32 %11, 32
  br i1 %12, label %13, label %14

13:                                               ; preds = %8
  call void @append(i8 noundef signext 47)
  call void @append(i8 noundef signext 32)
  br label %14

14:                                               ; preds = %13, %8
  %15 = load ptr, ptr %2, align 8
  %16 = load i8, ptr %15, align 1
  %17 = call ptr @code_of(i8 noundef signext %16)
  store ptr %17, ptr %3, align 8
  %18 = load ptr, ptr %3, align 8
  %19 = icmp ne ptr %18, null
  br i1 %19, label %20, label %32

20:                                               ; preds = %24, %14
  %21 = load ptr, ptr %3, align 8
  %22 = load i8, ptr %21, align 1
  %23 = icmp ne i8 %22, 0
  br i1 %23, label %24, label %29

24:                                               ; preds = %20
  %25 = load ptr, ptr %3, align 8
  %26 = load i8, ptr %25, align 1
  call void @append(i8 noundef signext %26)
  %27 = load ptr, ptr %3, align 8
  %28 = getelementptr inbounds i8, ptr %27, i32 1
  store ptr %28, ptr %3, align 8
  br label %20, !llvm.loop !8

29:                                               ; preds = %20
  call void @append(i8 noundef signext 32)
  %30 = load i32, ptr %1, align 4
  %31 = add nsw i32 %30, 1
  store i32 %31, ptr %1, align 4
  br label %32

32:                                               ; preds = %29, %14
  %33 = load ptr, ptr %2, align 8
  %34 = getelementptr inbounds i8, ptr %33, i32 1
  store ptr %34, ptr %2, align 8
  br label %4, !llvm.loop !9

35:                                               ; preds = %4
  call void @append(i8 noundef signext 0)
  %36 = load i32, ptr %1, align 4
  ret i32 %36
}

; Whether a code is what stands at this place, up to a blank.
; Function Attrs: noinline nounwind uwtable
define internal zeroext i1 @is_at(ptr noundef %0, ptr noundef %1) #0 {
  %3 = alloca ptr, align 8
  %4 = alloca ptr, align 8
  store ptr %0, ptr %3, align 8
  store ptr %1, ptr %4, align 8
  br label %5

5:                                                ; preds = %18, %2
  %6 = load ptr, ptr %3, align 8
  %7 = load i8, ptr %6, align 1
  %8 = sext i8 %7 to i32
  %9 = icmp ne i32 %8, 0
  br i1 %9, label %10, label %16

10:                                               ; preds = %5
  %11 = load ptr, ptr %3, align 8
  %12 = load i8, ptr %11, align 1
  %13 = load ptr, ptr %4, align 8
  %14 = load i8, ptr %13, align 1
  %15 = icmp eq i8 %12, %14
  br label %16

16:                                               ; preds = %10, %5
  %17 = phi i1 [ false, %5 ], [ %15, %10 ]
  br i1 %17, label %18, label %23

18:                                               ; preds = %16
  %19 = load ptr, ptr %3, align 8
  %20 = getelementptr inbounds i8, ptr %19, i32 1
  store ptr %20, ptr %3, align 8
  %21 = load ptr, ptr %4, align 8
  %22 = getelementptr inbounds i8, ptr %21, i32 1
  store ptr %22, ptr %4, align 8
  br label %5, !llvm.loop !10

23:                                               ; preds = %16
  %24 = load ptr, ptr %3, align 8
  %25 = load i8, ptr %24, align 1
  %26 = sext i8 %25 to i32
  %27 = icmp eq i32 %26, 0
  br i1 %27, label %28, label %33

28:                                               ; preds = %23
  %29 = load ptr, ptr %4, align 8
  %30 = load i8, ptr %29, align 1
  %31 = sext i8 %30 to i32
  %32 = icmp eq i32 %31, 32
  br label %33

33:                                               ; preds = %28, %23
  %34 = phi i1 [ false, %23 ], [ %32, %28 ]
  ret i1 %34
}

; The first of some codes that stands at this place, or -1.
; Function Attrs: noinline nounwind uwtable
define internal i32 @index_of(ptr noundef %0, i32 noundef %1, ptr noundef %2) #0 {
  %4 = alloca i32, align 4
  %5 = alloca ptr, align 8
  %6 = alloca i32, align 4
  %7 = alloca ptr, align 8
  %8 = alloca i32, align 4
  store ptr %0, ptr %5, align 8
  store i32 %1, ptr %6, align 4
  store ptr %2, ptr %7, align 8
  store i32 0, ptr %8, align 4
  br label %9

9:                                                ; preds = %22, %3
  %10 = load i32, ptr %8, align 4
  %11 = load i32, ptr %6, align 4
  %12 = icmp slt i32 %10, %11
  br i1 %12, label %13, label %25

13:                                               ; preds = %9
  %14 = load ptr, ptr %5, align 8
  %15 = load i32, ptr %8, align 4
  %16 = sext i32 %15 to i64
  %17 = getelementptr inbounds ptr, ptr %14, i64 %16
  %18 = load ptr, ptr %17, align 8
  %19 = load ptr, ptr %7, align 8
  %20 = call zeroext i1 @is_at(ptr noundef %18, ptr noundef %19)
  br i1 %20, label %21, label %22

21:                                               ; preds = %13
  %.found = load i32, ptr %8, align 4
  store i32 %.found, ptr %4, align 4
  br label %26

22:                                               ; preds = %13
  %23 = load i32, ptr %8, align 4
  %24 = add nsw i32 %23, 1
  store i32 %24, ptr %8, align 4
  br label %9, !llvm.loop !11

25:                                               ; preds = %9
  store i32 -1, ptr %4, align 4
  br label %26

26:                                               ; preds = %25, %21
  %27 = load i32, ptr %4, align 4
  ret i32 %27
}

; Writes what the code of the line says, in capitals.
; Function Attrs: noinline nounwind uwtable
define internal void @decode() #0 {
  %1 = alloca ptr, align 8
  %2 = alloca i32, align 4
  store ptr getelementptr inbounds ({ i32, [1024 x i8] }, ptr @coded, i32 0, i32 1), ptr %1, align 8
  br label %3

3:                                                ; preds = %35, %0
  %4 = load ptr, ptr %1, align 8
  %5 = load i8, ptr %4, align 1
  %6 = sext i8 %5 to i32
  switch i32 %6, label %9 [
    i32 0, label %36
    i32 47, label %7
    i32 32, label %32
  ]

7:                                                ; preds = %3
  %8 = call i32 @putchar(i32 noundef 32)
  br label %32

9:                                                ; preds = %3
  %10 = load ptr, ptr %1, align 8
  %11 = call i32 @index_of(ptr noundef @letters, i32 noundef 26, ptr noundef %10)
  store i32 %11, ptr %2, align 4
  %12 = load i32, ptr %2, align 4
  %13 = icmp sge i32 %12, 0
  br i1 %13, label %14, label %18

14:                                               ; preds = %9
  %15 = load i32, ptr %2, align 4
  %16 = add nsw i32 65, %15
  %17 = call i32 @putchar(i32 noundef %16)
  br label %23

18:                                               ; preds = %9
  %19 = load ptr, ptr %1, align 8
  %20 = call i32 @index_of(ptr noundef @digits, i32 noundef 10, ptr noundef %19)
  %21 = add nsw i32 48, %20
  %22 = call i32 @putchar(i32 noundef %21)
  br label %23

23:                                               ; preds = %29, %18, %14
  %24 = load ptr, ptr %1, align 8
  %25 = getelementptr inbounds i8, ptr %24, i64 1
  %26 = load i8, ptr %25, align 1
  %27 = sext i8 %26 to i32
  %28 = icmp ne i32 %27, 32
  br i1 %28, label %29, label %32

29:                                               ; preds = %23
  %30 = load ptr, ptr %1, align 8
  %31 = getelementptr inbounds i8, ptr %30, i32 1
  store ptr %31, ptr %1, align 8
  br label %23, !llvm.loop !12

32:                                               ; preds = %23, %7, %3
  %33 = load ptr, ptr %1, align 8
  %34 = getelementptr inbounds i8, ptr %33, i32 1
  store ptr %34, ptr %1, align 8
  br label %35

35:                                               ; preds = %32
  br label %3

36:                                               ; preds = %3
  ret void
}

; Function Attrs: noinline nounwind uwtable
define dso_local i32 @main() #0 {
  %1 = alloca i32, align 4
  %2 = alloca i32, align 4
  %3 = alloca ptr, align 8
  store i32 0, ptr %1, align 4
  store i32 0, ptr %2, align 4
  br label %4

4:                                                ; preds = %21, %0
  %5 = call i32 @read_line()
  %6 = icmp ne i32 %5, 0
  br i1 %6, label %7, label %24

7:                                                ; preds = %4
  %8 = call i32 @encode()
  %9 = load i32, ptr %2, align 4
  %10 = add nsw i32 %9, %8
  store i32 %10, ptr %2, align 4
  store ptr getelementptr inbounds ({ i32, [1024 x i8] }, ptr @coded, i32 0, i32 1), ptr %3, align 8
  br label %11

11:                                               ; preds = %15, %7
  %12 = load ptr, ptr %3, align 8
  %13 = load i8, ptr %12, align 1
  %14 = icmp ne i8 %13, 0
  br i1 %14, label %15, label %21

15:                                               ; preds = %11
  %16 = load ptr, ptr %3, align 8
  %17 = getelementptr inbounds i8, ptr %16, i32 1
  store ptr %17, ptr %3, align 8
  %18 = load i8, ptr %16, align 1
  %19 = sext i8 %18 to i32
  %20 = call i32 @putchar(i32 noundef %19)
  br label %11, !llvm.loop !13

21:                                               ; preds = %11
  %22 = call i32 @putchar(i32 noundef 10)
  call void @decode()
  %23 = call i32 @putchar(i32 noundef 10)
  br label %4, !llvm.loop !14

24:                                               ; preds = %4
  %25 = load i32, ptr %2, align 4
  ret i32 %25
}

declare i32 @getchar() #1

declare i32 @putchar(i32 noundef) #1

attributes #0 = { noinline nounwind uwtable "frame-pointer"="all" "min-legal-vector-width"="0" "no-trapping-math"="true" "stack-protector-buffer-size"="8" "target-cpu"="x86-64" "target-features"="+cx8,+fxsr,+mmx,+sse,+sse2,+x87" "tune-cpu"="generic" }
attributes #1 = { "frame-pointer"="all" "no-trapping-math"="true" "stack-protector-buffer-size"="8" "target-cpu"="x86-64" "target-features"="+cx8,+fxsr,+mmx,+sse,+sse2,+x87" "tune-cpu"="generic" }

!llvm.module.flags = !{!0, !1, !2, !3, !4}
!llvm.ident = !{!5}

!0 = !{i32 1, !"wchar_size", i32 4}
!1 = !{i32 8, !"PIC Level", i32 2}
!2 = !{i32 7, !"PIE Level", i32 2}
!3 = !{i32 7, !"uwtable", i32 2}
!4 = !{i32 7, !"frame-pointer", i32 2}
!5 = !{!"clang version 16.0.6"}
!6 = distinct !{!6, !7}
!7 = !{!"llvm.loop.mustprogress"}
!8 = distinct !{!8, !7}
!9 = distinct !{!9, !7}
!10 = distinct !{!10, !7}
!11 = distinct !{!11, !7}
!12 = distinct !{!12, !7}
!13 = distinct !{!13, !7}
!14 = distinct !{!14, !7}
