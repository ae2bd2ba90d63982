; Flags that later releases have found room for: comparisons of one sign, addresses without a carry, sums
; without one, truncations that lose nothing; a binary search by them.
; In the manner of releases of clang after 20, with -O2. Returns 24.
; ModuleID = 'flags.c'
source_filename = "flags.c"
target datalayout = "e-m:e-p270:32:32-p271:32:32-p272:64:64-i64:64-i128:128-f80:128-n8:16:32:64-S128"
target triple = "x86_64-unknown-linux-gnu"

@sorted = dso_local local_unnamed_addr constant [10 x i32] [i32 2, i32 3, i32 5, i32 8, i32 13, i32 21, i32 34, i32 55, i32 89, i32 144], align 16

; The place of a number in the list, or of the first that is greater.
; Function Attrs: nofree norecurse nosync nounwind memory(none) uwtable
define dso_local range(i64 0, 11) i64 @place(i32 noundef range(i32 0, 1000) %0) local_unnamed_addr #0 {
  br label %2

2:                                                ; preds = %6, %1
  %3 = phi i64 [ 0, %1 ], [ %13, %6 ]
  %4 = phi i64 [ 10, %1 ], [ %14, %6 ]
  %5 = icmp samesign ult i64 %3, %4
  br i1 %5, label %6, label %15

6:                                                ; preds = %2
  %7 = add nuw nsw i64 %3, %4
  %8 = lshr i64 %7, 1
  %9 = getelementptr inbounds nuw [10 x i32], ptr @sorted, i64 0, i64 %8
  %10 = load i32, ptr %9, align 4, !tbaa !5
  %11 = icmp samesign ult i32 %10, %0
  %12 = add nuw nsw i64 %8, 1
  %13 = select i1 %11, i64 %12, i64 %3
  %14 = select i1 %11, i64 %4, i64 %8
  br label %2, !llvm.loop !9

15:                                               ; preds = %2
  ret i64 %3
}

; Function Attrs: nofree norecurse nosync nounwind memory(none) uwtable
define dso_local range(i32 0, 111) i32 @main() local_unnamed_addr #0 {
  %1 = tail call range(i64 0, 11) i64 @place(i32 noundef 0)
  %2 = tail call range(i64 0, 11) i64 @place(i32 noundef 13)
  %3 = tail call range(i64 0, 11) i64 @place(i32 noundef 14)
  %4 = tail call range(i64 0, 11) i64 @place(i32 noundef 999)
  %5 = shl nuw nsw i64 %2, 1
  %6 = or disjoint i64 %5, 1
  %7 = add nuw nsw i64 %3, %1
  %8 = add nuw nsw i64 %7, %6
  %9 = add nuw nsw i64 %8, %4
  %10 = trunc nuw nsw i64 %9 to i32
  %11 = trunc nuw nsw i64 %4 to i8
  %12 = zext nneg i8 %11 to i32
  %13 = icmp samesign uge i32 %12, 10
  %14 = select i1 %13, i32 %10, i32 0
  ret i32 %14
}

attributes #0 = { nofree norecurse nosync nounwind memory(none) uwtable "min-legal-vector-width"="0" "no-trapping-math"="true" "stack-protector-buffer-size"="8" "target-cpu"="x86-64" "target-features"="+cmov,+cx8,+fxsr,+mmx,+sse,+sse2,+x87" "tune-cpu"="generic" }

!llvm.module.flags = !{!0, !1, !2, !3}
!llvm.ident = !{!4}

!0 = !{i32 1, !"wchar_size", i32 4}
!1 = !{i32 8, !"PIC Level", i32 2}
!2 = !{i32 7, !"PIE Level", i32 2}
!3 = !{i32 7, !"uwtable", i32 2}
!4 = !{!"clang version 22.0.0"}
!5 = !{!6, !6, i64 0}
!6 = !{!"int", !7, i64 0}
!7 = !{!"omnipotent char", !8, i64 0}
!8 = !{!"Simple C/C++ TBAA"}
!9 = distinct !{!9, !10}
!10 = !{!"llvm.loop.mustprogress"}
