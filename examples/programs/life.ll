; Conway's game of life on a torus of 12 rows and 16 columns: reads a picture, in which a star is a living
; cell, plays 20 generations, and writes the picture that is left. Two boards take turns, each a row of
; bytes behind the other in one structure.
; In the manner of clang 19 with -O1. Returns the number of living cells, here 5.
source_filename = "life.c"
target datalayout = "e-m:e-p270:32:32-p271:32:32-p272:64:64-i64:64-i128:128-f80:128-n8:16:32:64-S128"
target triple = "x86_64-pc-linux-gnu"

%struct.board = type { [12 x %struct.row] }
%struct.row = type { [16 x i8] }

@boards = internal global [2 x %struct.board] zeroinitializer, align 16

; Function Attrs: nofree nounwind uwtable
define internal fastcc void @read_board(ptr nocapture noundef writeonly %0) unnamed_addr #0 {
  br label %2

2:                                                ; preds = %9, %1
  %3 = phi i32 [ 0, %1 ], [ %11, %9 ]
  %4 = phi i32 [ 0, %1 ], [ %10, %9 ]
  %5 = tail call i32 @getchar() #3
  switch i32 %5, label %12 [
    i32 -1, label %23
    i32 10, label %6
  ]

6:                                                ; preds = %2
  %7 = add nuw nsw i32 %3, 1
  %8 = icmp eq i32 %7, 12
  br i1 %8, label %23, label %9

9:                                                ; preds = %15, %12, %6
  %10 = phi i32 [ 0, %6 ], [ %16, %15 ], [ %4, %12 ]
  %11 = phi i32 [ %7, %6 ], [ %3, %15 ], [ %3, %12 ]
  br label %2, !llvm.loop !5

12:                                               ; preds = %2
  %13 = icmp eq i32 %5, 42
  %14 = icmp ult i32 %4, 16
  br i1 %14, label %15, label %9

15:                                               ; preds = %12
  %16 = add nuw nsw i32 %4, 1
  %17 = zext nneg i32 %3 to i64
  %18 = zext nneg i32 %4 to i64
  %19 = shl nuw nsw i64 %17, 4
  %20 = or disjoint i64 %19, %18
  %21 = getelementptr inbounds i8, ptr %0, i64 %20
  %22 = zext i1 %13 to i8
  store i8 %22, ptr %21, align 1, !tbaa !7
  br label %9

23:                                               ; preds = %6, %2
  ret void
}

; The living cells round a cell; the board's edges meet.
; Function Attrs: nofree norecurse nosync nounwind memory(argmem: read) uwtable
define internal fastcc noundef range(i32 0, 9) i32 @neighbours(ptr nocapture noundef readonly %0, i32 noundef %1, i32 noundef %2) unnamed_addr #1 {
  br label %4

4:                                                ; preds = %27, %3
  %5 = phi i32 [ 0, %3 ], [ %24, %27 ]
  %6 = phi i32 [ 11, %3 ], [ %28, %27 ]
  %7 = add nuw nsw i32 %6, %1
  %8 = urem i32 %7, 12
  %9 = zext nneg i32 %8 to i64
  %10 = getelementptr inbounds [12 x %struct.row], ptr %0, i64 0, i64 %9
  br label %11

11:                                               ; preds = %11, %4
  %12 = phi i32 [ %5, %4 ], [ %24, %11 ]
  %13 = phi i32 [ 15, %4 ], [ %25, %11 ]
  %14 = add nuw nsw i32 %13, %2
  %15 = and i32 %14, 15
  %16 = zext nneg i32 %15 to i64
  %17 = getelementptr inbounds [16 x i8], ptr %10, i64 0, i64 %16
  %18 = load i8, ptr %17, align 1, !tbaa !7, !range !10, !noundef !11
  %19 = icmp eq i32 %6, 12
  %20 = icmp eq i32 %13, 16
  %21 = select i1 %19, i1 %20, i1 false
  %22 = zext nneg i8 %18 to i32
  %23 = select i1 %21, i32 0, i32 %22
  %24 = add nuw nsw i32 %23, %12
  %25 = add nuw nsw i32 %13, 1
  %26 = icmp eq i32 %25, 18
  br i1 %26, label %27, label %11, !llvm.loop !12

27:                                               ; preds = %11
  %28 = add nuw nsw i32 %6, 1
  %29 = icmp eq i32 %28, 14
  br i1 %29, label %30, label %4, !llvm.loop !13

30:                                               ; preds = %27
  ret i32 %24
}

; Function Attrs: nofree norecurse nosync nounwind memory(argmem: readwrite) uwtable
define internal fastcc void @step(ptr nocapture noundef readonly %0, ptr nocapture noundef writeonly %1) unnamed_addr #1 {
  br label %3

3:                                                ; preds = %24, %2
  %4 = phi i32 [ 0, %2 ], [ %25, %24 ]
  %5 = zext nneg i32 %4 to i64
  %6 = getelementptr inbounds [12 x %struct.row], ptr %0, i64 0, i64 %5
  %7 = getelementptr inbounds %struct.board, ptr %1, i64 0, i32 0, i64 %5
  br label %8

8:                                                ; preds = %8, %3
  %9 = phi i32 [ 0, %3 ], [ %22, %8 ]
  %10 = tail call fastcc i32 @neighbours(ptr noundef %0, i32 noundef %4, i32 noundef %9)
  %11 = zext nneg i32 %9 to i64
  %12 = getelementptr inbounds [16 x i8], ptr %6, i64 0, i64 %11
  %13 = load i8, ptr %12, align 1, !tbaa !7, !range !10, !noundef !11
  %14 = trunc nuw i8 %13 to i1
  %15 = icmp eq i32 %10, 2
  %16 = and i1 %15, %14
  %17 = icmp eq i32 %10, 3
  %18 = or i1 %17, %16
  %19 = getelementptr inbounds %struct.row, ptr %7, i64 0, i32 0
  %20 = getelementptr inbounds [16 x i8], ptr %19, i64 0, i64 %11
  %21 = zext i1 %18 to i8
  store i8 %21, ptr %20, align 1, !tbaa !7
  %22 = add nuw nsw i32 %9, 1
  %23 = icmp eq i32 %22, 16
  br i1 %23, label %24, label %8, !llvm.loop !14

24:                                               ; preds = %8
  %25 = add nuw nsw i32 %4, 1
  %26 = icmp eq i32 %25, 12
  br i1 %26, label %27, label %3, !llvm.loop !15

27:                                               ; preds = %24
  ret void
}

; Writes a board; gives how many cells are alive.
; Function Attrs: nofree nounwind uwtable
define internal fastcc i32 @write_board(ptr nocapture noundef readonly %0) unnamed_addr #0 {
  br label %2

2:                                                ; preds = %13, %1
  %3 = phi i64 [ 0, %1 ], [ %14, %13 ]
  %4 = phi i32 [ 0, %1 ], [ %12, %13 ]
  %5 = getelementptr inbounds i8, ptr %0, i64 %3
  %6 = load i8, ptr %5, align 1, !tbaa !7, !range !10, !noundef !11
  %7 = trunc nuw i8 %6 to i1
  %8 = select i1 %7, i32 42, i32 46
  %9 = tail call i32 @putchar(i32 noundef %8) #3
  %10 = and i64 %3, 15
  %11 = zext nneg i8 %6 to i32
  %12 = add nuw nsw i32 %4, %11
  %.not = icmp eq i64 %10, 15
  br i1 %.not, label %.end, label %13

.end:                                             ; preds = %2
  %.line = tail call i32 @putchar(i32 noundef 10) #3
  br label %13

13:                                               ; preds = %.end, %2
  %14 = add nuw nsw i64 %3, 1
  %15 = icmp eq i64 %14, 192
  br i1 %15, label %16, label %2, !llvm.loop !16

16:                                               ; preds = %13
  ret i32 %12
}

; Function Attrs: nofree nounwind uwtable
define dso_local noundef i32 @main() local_unnamed_addr #0 {
  tail call fastcc void @read_board(ptr noundef nonnull @boards)
  br label %1

1:                                                ; preds = %1, %0
  %2 = phi i32 [ 0, %0 ], [ %6, %1 ]
  %3 = phi ptr [ @boards, %0 ], [ %4, %1 ]
  %4 = phi ptr [ getelementptr inbounds (%struct.board, ptr @boards, i64 1), %0 ], [ %3, %1 ]
  tail call fastcc void @step(ptr noundef nonnull %3, ptr noundef nonnull %4)
  %5 = icmp ult i32 %2, 19
  %6 = add nuw nsw i32 %2, 1
  br i1 %5, label %1, label %7, !llvm.loop !17

7:                                                ; preds = %1
  %8 = tail call fastcc i32 @write_board(ptr noundef nonnull %4)
  ret i32 %8
}

; Function Attrs: nofree nounwind
declare noundef i32 @getchar() local_unnamed_addr #2

; Function Attrs: nofree nounwind
declare noundef i32 @putchar(i32 noundef) local_unnamed_addr #2

attributes #0 = { nofree nounwind uwtable "min-legal-vector-width"="0" "no-trapping-math"="true" "stack-protector-buffer-size"="8" "target-cpu"="x86-64" "target-features"="+cmov,+cx8,+fxsr,+mmx,+sse,+sse2,+x87" "tune-cpu"="generic" }
attributes #1 = { nofree norecurse nosync nounwind memory(argmem: readwrite) uwtable "min-legal-vector-width"="0" "no-trapping-math"="true" "stack-protector-buffer-size"="8" "target-cpu"="x86-64" "target-features"="+cmov,+cx8,+fxsr,+mmx,+sse,+sse2,+x87" "tune-cpu"="generic" }
attributes #2 = { nofree nounwind "no-trapping-math"="true" "stack-protector-buffer-size"="8" "target-cpu"="x86-64" "target-features"="+cmov,+cx8,+fxsr,+mmx,+sse,+sse2,+x87" "tune-cpu"="generic" }
attributes #3 = { nounwind }

!llvm.module.flags = !{!0, !1, !2, !3}
!llvm.ident = !{!4}

!0 = !{i32 1, !"wchar_size", i32 4}
!1 = !{i32 8, !"PIC Level", i32 2}
!2 = !{i32 7, !"PIE Level", i32 2}
!3 = !{i32 7, !"uwtable", i32 2}
!4 = !{!"clang version 19.1.7"}
!5 = distinct !{!5, !6}
!6 = !{!"llvm.loop.mustprogress"}
!7 = !{!8, !8, i64 0}
!8 = !{!"omnipotent char", !9, i64 0}
!9 = !{!"Simple C/C++ TBAA"}
!10 = !{i8 0, i8 2}
!11 = !{}
!12 = distinct !{!12, !6}
!13 = distinct !{!13, !6}
!14 = distinct !{!14, !6}
!15 = distinct !{!15, !6}
!16 = distinct !{!16, !6}
!17 = distinct !{!17, !6}
