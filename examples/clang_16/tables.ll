; Switches that have become look-ups in tables, in a word of bits and in a table of pointers to strings.
; In the manner of clang 16 -O2. Returns 42.
; ModuleID = 'tables.c'
source_filename = "tables.c"
target datalayout = "e-m:e-p270:32:32-p271:32:32-p272:64:64-i64:64-f80:128-n8:16:32:64-S128"
target triple = "x86_64-pc-linux-gnu"

@.str = private unnamed_addr constant [4 x i8] c"Mon\00", align 1
@.str.1 = private unnamed_addr constant [5 x i8] c"Tues\00", align 1
@.str.2 = private unnamed_addr constant [7 x i8] c"Wednes\00", align 1
@.str.3 = private unnamed_addr constant [6 x i8] c"Thurs\00", align 1
@.str.4 = private unnamed_addr constant [4 x i8] c"Fri\00", align 1
@.str.5 = private unnamed_addr constant [6 x i8] c"Satur\00", align 1
@.str.6 = private unnamed_addr constant [4 x i8] c"Sun\00", align 1
@.str.7 = private unnamed_addr constant [1 x i8] zeroinitializer, align 1
@switch.table.name = private unnamed_addr constant [7 x ptr] [ptr @.str, ptr @.str.1, ptr @.str.2, ptr @.str.3, ptr @.str.4, ptr @.str.5, ptr @.str.6], align 8
@switch.table.days = private unnamed_addr constant [12 x i32] [i32 31, i32 28, i32 31, i32 30, i32 31, i32 30, i32 31, i32 31, i32 30, i32 31, i32 30, i32 31], align 4

; Function Attrs: mustprogress nofree norecurse nosync nounwind willreturn memory(none) uwtable
define dso_local ptr @name(i32 noundef %0) local_unnamed_addr #0 {
  %2 = icmp ult i32 %0, 7
  br i1 %2, label %3, label %7

3:                                                ; preds = %1
  %4 = zext i32 %0 to i64
  %5 = getelementptr inbounds [7 x ptr], ptr @switch.table.name, i64 0, i64 %4
  %6 = load ptr, ptr %5, align 8
  br label %7

7:                                                ; preds = %3, %1
  %8 = phi ptr [ %6, %3 ], [ @.str.7, %1 ]
  ret ptr %8
}

; Function Attrs: mustprogress nofree norecurse nosync nounwind willreturn memory(none) uwtable
define dso_local i32 @days(i32 noundef %0, i32 noundef %1) local_unnamed_addr #0 {
  %3 = add i32 %0, -1
  %4 = icmp ult i32 %3, 12
  br i1 %4, label %5, label %19

5:                                                ; preds = %2
  %6 = zext i32 %3 to i64
  %7 = getelementptr inbounds [12 x i32], ptr @switch.table.days, i64 0, i64 %6
  %8 = load i32, ptr %7, align 4
  %9 = icmp eq i32 %0, 2
  br i1 %9, label %10, label %19

10:                                               ; preds = %5
  %11 = and i32 %1, 3
  %12 = icmp eq i32 %11, 0
  %13 = srem i32 %1, 100
  %14 = icmp ne i32 %13, 0
  %15 = srem i32 %1, 400
  %16 = icmp eq i32 %15, 0
  %17 = or i1 %14, %16
  %18 = select i1 %12, i1 %17, i1 false
  %.28 = zext i1 %18 to i32
  %.feb = add nuw nsw i32 %8, %.28
  br label %19

19:                                               ; preds = %10, %5, %2
  %20 = phi i32 [ %8, %5 ], [ %.feb, %10 ], [ 0, %2 ]
  ret i32 %20
}

; Function Attrs: mustprogress nofree norecurse nosync nounwind willreturn memory(none) uwtable
define dso_local zeroext i1 @is_vowel(i8 noundef signext %0) local_unnamed_addr #0 {
  %2 = add i8 %0, -97
  %3 = icmp ult i8 %2, 21
  %4 = zext i8 %2 to i32
  %5 = lshr i32 1065233, %4
  %6 = and i32 %5, 1
  %7 = icmp ne i32 %6, 0
  %8 = select i1 %3, i1 %7, i1 false
  ret i1 %8
}

; Writes a string; gives how many vowels it has.
; Function Attrs: nofree nounwind uwtable
define internal fastcc i32 @say(ptr nocapture noundef readonly %0) unnamed_addr #1 {
  br label %2

2:                                                ; preds = %7, %1
  %3 = phi ptr [ %0, %1 ], [ %8, %7 ]
  %4 = phi i32 [ 0, %1 ], [ %13, %7 ]
  %5 = load i8, ptr %3, align 1, !tbaa !5
  %6 = icmp eq i8 %5, 0
  br i1 %6, label %14, label %7

7:                                                ; preds = %2
  %8 = getelementptr inbounds i8, ptr %3, i64 1
  %9 = sext i8 %5 to i32
  %10 = tail call i32 @putchar(i32 noundef %9)
  %11 = tail call zeroext i1 @is_vowel(i8 noundef signext %5)
  %12 = zext i1 %11 to i32
  %13 = add nuw nsw i32 %4, %12
  br label %2, !llvm.loop !8

14:                                               ; preds = %2
  ret i32 %4
}

; Function Attrs: nofree nounwind uwtable
define dso_local i32 @main() local_unnamed_addr #1 {
  br label %1

1:                                                ; preds = %1, %0
  %2 = phi i32 [ 0, %0 ], [ %7, %1 ]
  %3 = phi i32 [ 0, %0 ], [ %6, %1 ]
  %4 = tail call ptr @name(i32 noundef %2)
  %5 = tail call fastcc i32 @say(ptr noundef %4)
  %6 = add nuw nsw i32 %5, %3
  %.gap = tail call i32 @putchar(i32 noundef 32)
  %7 = add nuw nsw i32 %2, 1
  %8 = icmp eq i32 %7, 8
  br i1 %8, label %9, label %1, !llvm.loop !10

9:                                                ; preds = %1
  %10 = tail call i32 @days(i32 noundef 2, i32 noundef 2024)
  %11 = tail call i32 @days(i32 noundef 2, i32 noundef 1900)
  %12 = tail call i32 @days(i32 noundef 12, i32 noundef 1900)
  %13 = tail call i32 @days(i32 noundef 13, i32 noundef 2000)
  %14 = sub nsw i32 %10, %11
  %15 = add nsw i32 %14, %12
  %16 = add nsw i32 %15, %13
  %17 = add nsw i32 %16, %6
  ret i32 %17
}

; Function Attrs: nofree nounwind
declare noundef i32 @putchar(i32 noundef) local_unnamed_addr #2

attributes #0 = { mustprogress nofree norecurse nosync nounwind willreturn memory(none) uwtable "min-legal-vector-width"="0" "no-trapping-math"="true" "stack-protector-buffer-size"="8" "target-cpu"="x86-64" "target-features"="+cx8,+fxsr,+mmx,+sse,+sse2,+x87" "tune-cpu"="generic" }
attributes #1 = { nofree nounwind uwtable "min-legal-vector-width"="0" "no-trapping-math"="true" "stack-protector-buffer-size"="8" "target-cpu"="x86-64" "target-features"="+cx8,+fxsr,+mmx,+sse,+sse2,+x87" "tune-cpu"="generic" }
attributes #2 = { nofree nounwind "no-trapping-math"="true" "stack-protector-buffer-size"="8" "target-cpu"="x86-64" "target-features"="+cx8,+fxsr,+mmx,+sse,+sse2,+x87" "tune-cpu"="generic" }

!llvm.module.flags = !{!0, !1, !2, !3}
!llvm.ident = !{!4}

!0 = !{i32 1, !"wchar_size", i32 4}
!1 = !{i32 8, !"PIC Level", i32 2}
!2 = !{i32 7, !"PIE Level", i32 2}
!3 = !{i32 7, !"uwtable", i32 2}
!4 = !{!"clang version 16.0.6"}
!5 = !{!6, !6, i64 0}
!6 = !{!"omnipotent char", !7, i64 0}
!7 = !{!"Simple C/C++ TBAA"}
!8 = distinct !{!8, !9}
!9 = !{!"llvm.loop.mustprogress"}
!10 = distinct !{!10, !9}
