; What is known of branches and loads as attachments: weights, what can't be foretold, ranges, pointers that
; are never null; conditions that are frozen, and short circuits as selections.
; In the manner of clang 19 -O2. Returns 88.
; ModuleID = 'branches.c'
source_filename = "branches.c"
target datalayout = "e-m:e-p270:32:32-p271:32:32-p272:64:64-i64:64-i128:128-f80:128-n8:16:32:64-S128"
target triple = "x86_64-pc-linux-gnu"

%struct.state = type { ptr, i32, i8 }

@zero = dso_local global i32 0, align 4
@state = dso_local local_unnamed_addr global %struct.state { ptr @zero, i32 60, i8 1 }, align 8
@tokens = internal unnamed_addr constant [24 x i8] c"push 7 push 5 add dup mu", align 16

; The class of a character, likely letters first.
; Function Attrs: mustprogress nofree norecurse nosync nounwind willreturn memory(none) uwtable
define dso_local range(i32 0, 4) i32 @kind(i8 noundef signext %0) local_unnamed_addr #0 {
  %2 = add i8 %0, -97
  %3 = icmp ult i8 %2, 26
  br i1 %3, label %10, label %4, !prof !5

4:                                                ; preds = %1
  %5 = add i8 %0, -48
  %6 = icmp ult i8 %5, 10
  br i1 %6, label %10, label %7, !unpredictable !6

7:                                                ; preds = %4
  switch i8 %0, label %8 [
    i8 32, label %10
    i8 9, label %10
    i8 10, label %9
  ], !prof !7

8:                                                ; preds = %7
  br label %10

9:                                                ; preds = %7
  br label %10

10:                                               ; preds = %9, %8, %7, %7, %4, %1
  %11 = phi i32 [ 1, %1 ], [ 2, %4 ], [ 3, %7 ], [ 3, %7 ], [ 0, %8 ], [ 3, %9 ]
  ret i32 %11
}

; How often what this pointer leads to may be looked at before it is taken for good.
; Function Attrs: mustprogress nofree norecurse nosync nounwind willreturn memory(read, inaccessiblemem: none) uwtable
define dso_local i32 @budget(ptr nocapture noundef nonnull readonly %0, i32 noundef %1) local_unnamed_addr #1 {
  %3 = load ptr, ptr %0, align 8, !tbaa !8, !nonnull !6, !align !14, !noundef !6
  %4 = load i32, ptr %3, align 4, !tbaa !15
  %5 = getelementptr inbounds i8, ptr %0, i64 12
  %6 = load i8, ptr %5, align 4, !tbaa !16, !range !17, !noundef !6
  %7 = trunc nuw i8 %6 to i1
  %8 = icmp sgt i32 %1, %4
  %9 = select i1 %7, i1 %8, i1 false
  %10 = freeze i1 %9
  %11 = getelementptr inbounds i8, ptr %0, i64 8
  %12 = load i32, ptr %11, align 8, !tbaa !18, !range !19
  %13 = select i1 %10, i32 %12, i32 %1, !prof !20
  ret i32 %13
}

; Function Attrs: mustprogress nofree norecurse nosync nounwind willreturn memory(none) uwtable
define dso_local i32 @share(i32 noundef %0, i32 noundef %1) local_unnamed_addr #0 {
  %3 = icmp eq i32 %1, 0
  br i1 %3, label %4, label %5, !prof !20

4:                                                ; preds = %2
  unreachable

5:                                                ; preds = %2
  %6 = freeze i32 %1
  %7 = icmp slt i32 %0, 0
  %8 = icmp slt i32 %6, 0
  %9 = select i1 %7, i1 true, i1 %8
  %10 = udiv i32 %0, %6
  %11 = select i1 %9, i32 -1, i32 %10
  ret i32 %11
}

; Function Attrs: mustprogress nofree norecurse nosync nounwind willreturn memory(readwrite, argmem: none, inaccessiblemem: none) uwtable
define dso_local i32 @main() local_unnamed_addr #2 {
  br label %1

1:                                                ; preds = %1, %0
  %2 = phi i64 [ 0, %0 ], [ %11, %1 ]
  %3 = phi i32 [ 0, %0 ], [ %10, %1 ]
  %4 = getelementptr inbounds [24 x i8], ptr @tokens, i64 0, i64 %2
  %5 = load i8, ptr %4, align 1, !tbaa !21
  %6 = tail call i32 @kind(i8 noundef signext %5), !range !22
  %7 = icmp eq i32 %6, 3
  %8 = icmp eq i32 %6, 2
  %9 = zext i1 %8 to i32
  %.3 = select i1 %7, i32 3, i32 %9
  %10 = add nuw nsw i32 %.3, %3
  %11 = add nuw nsw i64 %2, 1
  %12 = icmp eq i64 %11, 24
  br i1 %12, label %13, label %1, !prof !23, !llvm.loop !24

13:                                               ; preds = %1
  %14 = tail call i32 @budget(ptr noundef nonnull @state, i32 noundef 4)
  %15 = tail call i32 @budget(ptr noundef nonnull @state, i32 noundef -3)
  %16 = tail call i32 @share(i32 noundef 100, i32 noundef 8)
  %17 = tail call i32 @share(i32 noundef -100, i32 noundef 8)
  %18 = add nsw i32 %14, %10
  %19 = add nsw i32 %18, %15
  %20 = add nsw i32 %19, %16
  %21 = add nsw i32 %20, %17
  ret i32 %21
}

attributes #0 = { mustprogress nofree norecurse nosync nounwind willreturn memory(none) uwtable "min-legal-vector-width"="0" "no-trapping-math"="true" "stack-protector-buffer-size"="8" "target-cpu"="x86-64" "target-features"="+cmov,+cx8,+fxsr,+mmx,+sse,+sse2,+x87" "tune-cpu"="generic" }
attributes #1 = { mustprogress nofree norecurse nosync nounwind willreturn memory(read, inaccessiblemem: none) uwtable "min-legal-vector-width"="0" "no-trapping-math"="true" "stack-protector-buffer-size"="8" "target-cpu"="x86-64" "target-features"="+cmov,+cx8,+fxsr,+mmx,+sse,+sse2,+x87" "tune-cpu"="generic" }
attributes #2 = { mustprogress nofree norecurse nosync nounwind willreturn memory(readwrite, argmem: none, inaccessiblemem: none) uwtable "min-legal-vector-width"="0" "no-trapping-math"="true" "stack-protector-buffer-size"="8" "target-cpu"="x86-64" "target-features"="+cmov,+cx8,+fxsr,+mmx,+sse,+sse2,+x87" "tune-cpu"="generic" }

!llvm.module.flags = !{!0, !1, !2, !3}
!llvm.ident = !{!4}

!0 = !{i32 1, !"wchar_size", i32 4}
!1 = !{i32 8, !"PIC Level", i32 2}
!2 = !{i32 7, !"PIE Level", i32 2}
!3 = !{i32 7, !"uwtable", i32 2}
!4 = !{!"clang version 19.1.7"}
!5 = !{!"branch_weights", !"expected", i32 2000, i32 1}
!6 = !{}
!7 = !{!"branch_weights", i32 1, i32 64, i32 2, i32 8}
!8 = !{!9, !10, i64 0}
!9 = !{!"state", !10, i64 0, !13, i64 8, !11, i64 12}
!10 = !{!"any pointer", !11, i64 0}
!11 = !{!"omnipotent char", !12, i64 0}
!12 = !{!"Simple C/C++ TBAA"}
!13 = !{!"int", !11, i64 0}
!14 = !{i64 4}
!15 = !{!13, !13, i64 0}
!16 = !{!9, !11, i64 12}
!17 = !{i8 0, i8 2}
!18 = !{!9, !13, i64 8}
!19 = !{i32 0, i32 100}
!20 = !{!"branch_weights", i32 1, i32 2000}
!21 = !{!11, !11, i64 0}
!22 = !{i32 0, i32 4}
!23 = !{!"branch_weights", i32 1, i32 24}
!24 = distinct !{!24, !25}
!25 = !{!"llvm.loop.mustprogress"}
