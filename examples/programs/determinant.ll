; Determinants of square matrices of up to eight rows by elimination without fractions (Bareiss 1968):
; each division is exact. The input has the number of rows and then the entries of each matrix; the
; determinants are written one on a line, up to a size that is no size or the end of the input.
; In the manner of clang 19 with -O1. Returns the number of matrices, here 5.
source_filename = "determinant.c"
target datalayout = "e-m:e-p270:32:32-p271:32:32-p272:64:64-i64:64-i128:128-f80:128-n8:16:32:64-S128"
target triple = "x86_64-pc-linux-gnu"

@matrix = internal unnamed_addr global [8 x [8 x i64]] zeroinitializer, align 16

; A decimal number with or without a sign, behind blanks; 0 at the end.
; Function Attrs: nofree nounwind uwtable
define internal fastcc i64 @read_number() unnamed_addr #0 {
  br label %1

1:                                                ; preds = %1, %1, %1, %1, %0
  %2 = tail call i32 @getchar() #5
  switch i32 %2, label %5 [
    i32 32, label %1
    i32 10, label %1
    i32 13, label %1
    i32 9, label %1
    i32 45, label %3
  ]

3:                                                ; preds = %1
  %4 = tail call i32 @getchar() #5
  br label %5

5:                                                ; preds = %3, %1
  %6 = phi i32 [ %4, %3 ], [ %2, %1 ]
  %7 = phi i1 [ true, %3 ], [ false, %1 ]
  %8 = add i32 %6, -48
  %9 = icmp ult i32 %8, 10
  br i1 %9, label %10, label %19

10:                                               ; preds = %10, %5
  %11 = phi i32 [ %17, %10 ], [ %8, %5 ]
  %12 = phi i64 [ %15, %10 ], [ 0, %5 ]
  %13 = mul nsw i64 %12, 10
  %14 = zext nneg i32 %11 to i64
  %15 = add nsw i64 %13, %14
  %16 = tail call i32 @getchar() #5
  %17 = add i32 %16, -48
  %18 = icmp ult i32 %17, 10
  br i1 %18, label %10, label %19, !llvm.loop !5

19:                                               ; preds = %10, %5
  %20 = phi i64 [ 0, %5 ], [ %15, %10 ]
  %21 = sub nsw i64 0, %20
  %22 = select i1 %7, i64 %21, i64 %20
  ret i64 %22
}

; The decimal digits of a number that isn't negative.
; Function Attrs: nofree nounwind uwtable
define internal fastcc void @write_digits(i64 noundef %0) unnamed_addr #0 {
  %2 = icmp ugt i64 %0, 9
  br i1 %2, label %3, label %5

3:                                                ; preds = %1
  %4 = udiv i64 %0, 10
  tail call fastcc void @write_digits(i64 noundef %4)
  br label %5

5:                                                ; preds = %3, %1
  %6 = urem i64 %0, 10
  %7 = trunc nuw nsw i64 %6 to i32
  %8 = or disjoint i32 %7, 48
  %9 = tail call i32 @putchar(i32 noundef %8) #5
  ret void
}

; Function Attrs: nofree nounwind uwtable
define internal fastcc void @write_line(i64 noundef %0) unnamed_addr #0 {
  %2 = icmp slt i64 %0, 0
  br i1 %2, label %3, label %5

3:                                                ; preds = %1
  %4 = tail call i32 @putchar(i32 noundef 45) #5
  br label %5

5:                                                ; preds = %3, %1
  %6 = sub i64 0, %0
  %7 = select i1 %2, i64 %6, i64 %0
  tail call fastcc void @write_digits(i64 noundef %7)
  %8 = tail call i32 @putchar(i32 noundef 10) #5
  ret void
}

; The first row from this one on whose entry in this column isn't 0; the number of rows where none is.
; Function Attrs: nofree norecurse nosync nounwind memory(read, argmem: none, inaccessiblemem: none) uwtable
define internal fastcc range(i32 0, 9) i32 @pivot(i32 noundef %0, i32 noundef %1) unnamed_addr #1 {
  %3 = zext nneg i32 %0 to i64
  br label %4

4:                                                ; preds = %11, %2
  %5 = phi i32 [ %0, %2 ], [ %12, %11 ]
  %6 = icmp slt i32 %5, %1
  br i1 %6, label %7, label %13

7:                                                ; preds = %4
  %8 = zext nneg i32 %5 to i64
  %9 = getelementptr inbounds [8 x [8 x i64]], ptr @matrix, i64 0, i64 %8, i64 %3
  %10 = load i64, ptr %9, align 8, !tbaa !7
  %.not = icmp eq i64 %10, 0
  br i1 %.not, label %11, label %13

11:                                               ; preds = %7
  %12 = add nuw nsw i32 %5, 1
  br label %4, !llvm.loop !11

13:                                               ; preds = %7, %4
  %14 = phi i32 [ %5, %7 ], [ %1, %4 ]
  ret i32 %14
}

; Function Attrs: nofree norecurse nosync nounwind memory(argmem: readwrite) uwtable
define internal fastcc void @swap_rows(ptr nocapture noundef nonnull align 8 dereferenceable(64) %0, ptr nocapture noundef nonnull align 8 dereferenceable(64) %1) unnamed_addr #2 {
  br label %3

3:                                                ; preds = %3, %2
  %4 = phi i64 [ 0, %2 ], [ %9, %3 ]
  %5 = getelementptr inbounds [8 x i64], ptr %0, i64 0, i64 %4
  %6 = load i64, ptr %5, align 8, !tbaa !7
  %7 = getelementptr inbounds [8 x i64], ptr %1, i64 0, i64 %4
  %8 = load i64, ptr %7, align 8, !tbaa !7
  store i64 %8, ptr %5, align 8, !tbaa !7
  store i64 %6, ptr %7, align 8, !tbaa !7
  %9 = add nuw nsw i64 %4, 1
  %10 = icmp eq i64 %9, 8
  br i1 %10, label %11, label %3, !llvm.loop !12

11:                                               ; preds = %3
  ret void
}

; What is left below and to the right of a row's pivot.
; Function Attrs: nofree norecurse nosync nounwind memory(readwrite, argmem: none, inaccessiblemem: none) uwtable
define internal fastcc void @eliminate(i32 noundef %0, i32 noundef %1, i64 noundef %2) unnamed_addr #3 {
  %4 = zext nneg i32 %0 to i64
  %5 = zext nneg i32 %1 to i64
  %6 = getelementptr inbounds [8 x [8 x i64]], ptr @matrix, i64 0, i64 %4, i64 %4
  %7 = load i64, ptr %6, align 8, !tbaa !7
  %8 = add nuw nsw i64 %4, 1
  br label %9

9:                                                ; preds = %27, %3
  %10 = phi i64 [ %8, %3 ], [ %28, %27 ]
  %11 = icmp slt i64 %10, %5
  br i1 %11, label %12, label %29

12:                                               ; preds = %9
  %13 = getelementptr inbounds [8 x [8 x i64]], ptr @matrix, i64 0, i64 %10, i64 %4
  %14 = load i64, ptr %13, align 8, !tbaa !7
  br label %15

15:                                               ; preds = %18, %12
  %16 = phi i64 [ %8, %12 ], [ %26, %18 ]
  %17 = icmp slt i64 %16, %5
  br i1 %17, label %18, label %27

18:                                               ; preds = %15
  %19 = getelementptr inbounds [8 x [8 x i64]], ptr @matrix, i64 0, i64 %10, i64 %16
  %20 = load i64, ptr %19, align 8, !tbaa !7
  %21 = mul nsw i64 %20, %7
  %22 = getelementptr inbounds [8 x [8 x i64]], ptr @matrix, i64 0, i64 %4, i64 %16
  %23 = load i64, ptr %22, align 8, !tbaa !7
  %.neg = mul i64 %23, %14
  %24 = sub i64 %21, %.neg
  %25 = sdiv exact i64 %24, %2
  store i64 %25, ptr %19, align 8, !tbaa !7
  %26 = add nuw nsw i64 %16, 1
  br label %15, !llvm.loop !13

27:                                               ; preds = %15
  %28 = add nuw nsw i64 %10, 1
  br label %9, !llvm.loop !14

29:                                               ; preds = %9
  ret void
}

; Function Attrs: nofree norecurse nosync nounwind memory(readwrite, argmem: none, inaccessiblemem: none) uwtable
define internal fastcc i64 @determinant(i32 noundef %0) unnamed_addr #3 {
  br label %2

2:                                                ; preds = %18, %1
  %3 = phi i32 [ 0, %1 ], [ %22, %18 ]
  %4 = phi i64 [ 1, %1 ], [ %21, %18 ]
  %5 = phi i1 [ false, %1 ], [ %19, %18 ]
  %6 = icmp slt i32 %3, %0
  br i1 %6, label %7, label %23

7:                                                ; preds = %2
  %8 = tail call fastcc i32 @pivot(i32 noundef %3, i32 noundef %0)
  %9 = icmp eq i32 %8, %0
  br i1 %9, label %26, label %10

10:                                               ; preds = %7
  %11 = zext nneg i32 %3 to i64
  %12 = getelementptr inbounds [8 x [8 x i64]], ptr @matrix, i64 0, i64 %11
  %13 = icmp eq i32 %8, %3
  br i1 %13, label %18, label %14

14:                                               ; preds = %10
  %15 = zext nneg i32 %8 to i64
  %16 = getelementptr inbounds [8 x [8 x i64]], ptr @matrix, i64 0, i64 %15
  tail call fastcc void @swap_rows(ptr noundef nonnull %12, ptr noundef nonnull %16)
  %17 = xor i1 %5, true
  br label %18

18:                                               ; preds = %14, %10
  %19 = phi i1 [ %17, %14 ], [ %5, %10 ]
  tail call fastcc void @eliminate(i32 noundef %3, i32 noundef %0, i64 noundef %4)
  %20 = getelementptr inbounds [8 x i64], ptr %12, i64 0, i64 %11
  %21 = load i64, ptr %20, align 8, !tbaa !7
  %22 = add nuw nsw i32 %3, 1
  br label %2, !llvm.loop !15

23:                                               ; preds = %2
  %24 = sub i64 0, %4
  %25 = select i1 %5, i64 %24, i64 %4
  br label %26

26:                                               ; preds = %23, %7
  %27 = phi i64 [ %25, %23 ], [ 0, %7 ]
  ret i64 %27
}

; Function Attrs: nofree nounwind uwtable
define dso_local noundef i32 @main() local_unnamed_addr #0 {
  br label %1

1:                                                ; preds = %20, %0
  %2 = phi i32 [ 0, %0 ], [ %22, %20 ]
  %3 = tail call fastcc i64 @read_number()
  %4 = trunc i64 %3 to i32
  %5 = add i32 %4, -9
  %6 = icmp ult i32 %5, -8
  br i1 %6, label %23, label %7

7:                                                ; preds = %18, %1
  %8 = phi i32 [ 0, %1 ], [ %19, %18 ]
  %9 = icmp slt i32 %8, %4
  br i1 %9, label %10, label %20

10:                                               ; preds = %13, %7
  %11 = phi i32 [ 0, %7 ], [ %17, %13 ]
  %12 = icmp slt i32 %11, %4
  br i1 %12, label %13, label %18

13:                                               ; preds = %10
  %14 = zext nneg i32 %8 to i64
  %15 = zext nneg i32 %11 to i64
  %.entry = getelementptr inbounds [8 x [8 x i64]], ptr @matrix, i64 0, i64 %14, i64 %15
  %16 = tail call fastcc i64 @read_number()
  store i64 %16, ptr %.entry, align 8, !tbaa !7
  %17 = add nuw nsw i32 %11, 1
  br label %10, !llvm.loop !16

18:                                               ; preds = %10
  %19 = add nuw nsw i32 %8, 1
  br label %7, !llvm.loop !17

20:                                               ; preds = %7
  %21 = tail call fastcc i64 @determinant(i32 noundef %4)
  tail call fastcc void @write_line(i64 noundef %21)
  %22 = add nuw nsw i32 %2, 1
  br label %1, !llvm.loop !18

23:                                               ; preds = %1
  ret i32 %2
}

; Function Attrs: nofree nounwind
declare noundef i32 @getchar() local_unnamed_addr #4

; Function Attrs: nofree nounwind
declare noundef i32 @putchar(i32 noundef) local_unnamed_addr #4

attributes #0 = { nofree nounwind uwtable "min-legal-vector-width"="0" "no-trapping-math"="true" "stack-protector-buffer-size"="8" "target-cpu"="x86-64" "target-features"="+cmov,+cx8,+fxsr,+mmx,+sse,+sse2,+x87" "tune-cpu"="generic" }
attributes #1 = { nofree norecurse nosync nounwind memory(read, argmem: none, inaccessiblemem: none) uwtable "min-legal-vector-width"="0" "no-trapping-math"="true" "stack-protector-buffer-size"="8" "target-cpu"="x86-64" "target-features"="+cmov,+cx8,+fxsr,+mmx,+sse,+sse2,+x87" "tune-cpu"="generic" }
attributes #2 = { nofree norecurse nosync nounwind memory(argmem: readwrite) uwtable "min-legal-vector-width"="0" "no-trapping-math"="true" "stack-protector-buffer-size"="8" "target-cpu"="x86-64" "target-features"="+cmov,+cx8,+fxsr,+mmx,+sse,+sse2,+x87" "tune-cpu"="generic" }
attributes #3 = { nofree norecurse nosync nounwind memory(readwrite, argmem: none, inaccessiblemem: none) uwtable "min-legal-vector-width"="0" "no-trapping-math"="true" "stack-protector-buffer-size"="8" "target-cpu"="x86-64" "target-features"="+cmov,+cx8,+fxsr,+mmx,+sse,+sse2,+x87" "tune-cpu"="generic" }
attributes #4 = { nofree nounwind "no-trapping-math"="true" "stack-protector-buffer-size"="8" "target-cpu"="x86-64" "target-features"="+cmov,+cx8,+fxsr,+mmx,+sse,+sse2,+x87" "tune-cpu"="generic" }
attributes #5 = { nounwind }

!llvm.module.flags = !{!0, !1, !2, !3}
!llvm.ident = !{!4}

!0 = !{i32 1, !"wchar_size", i32 4}
!1 = !{i32 8, !"PIC Level", i32 2}
!2 = !{i32 7, !"PIE Level", i32 2}
!3 = !{i32 7, !"uwtable", i32 2}
!4 = !{!"clang version 19.1.7"}
!5 = distinct !{!5, !6}
!6 = !{!"llvm.loop.mustprogress"}
!7 = !{!8, !8, i64 0}
!8 = !{!"long", !9, i64 0}
!9 = !{!"omnipotent char", !10, i64 0}
!10 = !{!"Simple C/C++ TBAA"}
!11 = distinct !{!11, !6}
!12 = distinct !{!12, !6}
!13 = distinct !{!13, !6}
!14 = distinct !{!14, !6}
!15 = distinct !{!15, !6}
!16 = distinct !{!16, !6}
!17 = distinct !{!17, !6}
!18 = distinct !{!18, !6}
