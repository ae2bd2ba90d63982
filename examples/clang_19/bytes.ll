; Strings with every kind of escape, unions and bit fields as packed structures of bytes, padding, and
; addresses in initialisers.
; In the manner of clang 19 -O1. Returns -61.
; ModuleID = 'bytes.c'
source_filename = "bytes.c"
target datalayout = "e-m:e-p270:32:32-p271:32:32-p272:64:64-i64:64-i128:128-f80:128-n8:16:32:64-S128"
target triple = "x86_64-pc-linux-gnu"

%union.word = type { i64 }
%struct.text = type { ptr, i32, [4 x i8] }

@raw = dso_local global <{ [5 x i8], [3 x i8] }> <{ [5 x i8] c"a\22\5C\0Ab", [3 x i8] zeroinitializer }>, align 1
@bits = dso_local local_unnamed_addr global { i8, i8, i8, i8, i16, [2 x i8] } { i8 -91, i8 3, i8 0, i8 -128, i16 -2, [2 x i8] zeroinitializer }, align 4
@mixed = internal global { ptr, <{ i8, i32 }>, [3 x i8] } { ptr getelementptr (i8, ptr @raw, i64 4), <{ i8, i32 }> <{ i8 9, i32 305419896 }>, [3 x i8] c"\FE\FF\00" }, align 8
@ends = internal unnamed_addr constant [2 x ptr] [ptr @raw, ptr getelementptr inbounds (<{ [5 x i8], [3 x i8] }>, ptr @raw, i64 0, i32 1, i64 0)], align 16
@nothing = dso_local global [0 x i32] zeroinitializer, align 4
@empty = dso_local global {} zeroinitializer, align 1
@"\01spelled in C" = internal global i16 4660, align 2
@words = internal global [2 x %union.word] [%union.word { i64 72057594037927936 }, %union.word { i64 -1 }], align 16
@texts = internal unnamed_addr constant [2 x %struct.text] [%struct.text { ptr @.str, i32 2, [4 x i8] zeroinitializer }, %struct.text { ptr null, i32 0, [4 x i8] zeroinitializer }], align 16
@.str = private unnamed_addr constant [3 x i8] c"\C3\A9\00", align 1

; Writes the bytes from one place to before another.
; Function Attrs: nofree nounwind uwtable
define internal fastcc void @write(ptr noundef readonly %0, ptr noundef readnone %1) unnamed_addr #0 {
  %3 = icmp eq ptr %0, %1
  br i1 %3, label %11, label %4

4:                                                ; preds = %4, %2
  %5 = phi ptr [ %9, %4 ], [ %0, %2 ]
  %6 = load i8, ptr %5, align 1, !tbaa !5
  %7 = zext i8 %6 to i32
  %8 = tail call i32 @putchar(i32 noundef %7)
  %9 = getelementptr inbounds i8, ptr %5, i64 1
  %10 = icmp eq ptr %9, %1
  br i1 %10, label %11, label %4, !llvm.loop !8

11:                                               ; preds = %4, %2
  ret void
}

; The sum of the bytes of an object, each as signed.
; Function Attrs: nofree norecurse nosync nounwind memory(argmem: read) uwtable
define internal fastcc i32 @sum(ptr nocapture noundef readonly %0, i64 noundef %1) unnamed_addr #1 {
  br label %3

3:                                                ; preds = %7, %2
  %4 = phi i64 [ 0, %2 ], [ %11, %7 ]
  %5 = phi i32 [ 0, %2 ], [ %10, %7 ]
  %6 = icmp ult i64 %4, %1
  br i1 %6, label %7, label %12

7:                                                ; preds = %3
  %8 = getelementptr inbounds i8, ptr %0, i64 %4
  %.byte = load i8, ptr %8, align 1, !tbaa !5
  %9 = sext i8 %.byte to i32
  %10 = add nsw i32 %5, %9
  %11 = add nuw nsw i64 %4, 1
  br label %3, !llvm.loop !10

12:                                               ; preds = %3
  ret i32 %5
}

; Function Attrs: nofree nounwind uwtable
define dso_local i32 @main() local_unnamed_addr #0 {
  %1 = load ptr, ptr @ends, align 16, !tbaa !11
  %2 = load ptr, ptr getelementptr inbounds (i8, ptr @ends, i64 8), align 8, !tbaa !11
  tail call fastcc void @write(ptr noundef %1, ptr noundef %2)
  %3 = load ptr, ptr @texts, align 16, !tbaa !13
  %4 = load i32, ptr getelementptr inbounds (i8, ptr @texts, i64 8), align 8, !tbaa !16
  %5 = zext i32 %4 to i64
  %6 = getelementptr inbounds i8, ptr %3, i64 %5
  tail call fastcc void @write(ptr noundef %3, ptr noundef %6)
  %7 = tail call fastcc i32 @sum(ptr noundef nonnull @bits, i64 noundef 8)
  %8 = load ptr, ptr @mixed, align 8, !tbaa !11
  %9 = load i8, ptr %8, align 1, !tbaa !5
  %10 = sext i8 %9 to i32
  %11 = add nsw i32 %7, %10
  %12 = load i32, ptr getelementptr inbounds ({ ptr, <{ i8, i32 }>, [3 x i8] }, ptr @mixed, i64 0, i32 1, i32 1), align 1, !tbaa !17
  %13 = lshr i32 %12, 24
  %14 = add nsw i32 %11, %13
  %15 = tail call fastcc i32 @sum(ptr noundef nonnull getelementptr inbounds (i8, ptr @mixed, i64 13), i64 noundef 3)
  %16 = add nsw i32 %14, %15
  %17 = load i16, ptr @"\01spelled in C", align 2, !tbaa !18
  %18 = trunc i16 %17 to i8
  %19 = zext i8 %18 to i32
  %20 = add nsw i32 %16, %19
  %21 = tail call fastcc i32 @sum(ptr noundef nonnull @words, i64 noundef 16)
  %22 = add nsw i32 %20, %21
  ret i32 %22
}

; Function Attrs: nofree nounwind
declare noundef i32 @putchar(i32 noundef) local_unnamed_addr #2

attributes #0 = { nofree nounwind uwtable "min-legal-vector-width"="0" "no-trapping-math"="true" "stack-protector-buffer-size"="8" "target-cpu"="x86-64" "target-features"="+cmov,+cx8,+fxsr,+mmx,+sse,+sse2,+x87" "tune-cpu"="generic" }
attributes #1 = { nofree norecurse nosync nounwind memory(argmem: read) uwtable "min-legal-vector-width"="0" "no-trapping-math"="true" "stack-protector-buffer-size"="8" "target-cpu"="x86-64" "target-features"="+cmov,+cx8,+fxsr,+mmx,+sse,+sse2,+x87" "tune-cpu"="generic" }
attributes #2 = { nofree nounwind "no-trapping-math"="true" "stack-protector-buffer-size"="8" "target-cpu"="x86-64" "target-features"="+cmov,+cx8,+fxsr,+mmx,+sse,+sse2,+x87" "tune-cpu"="generic" }

!llvm.module.flags = !{!0, !1, !2, !3}
!llvm.ident = !{!4}

!0 = !{i32 1, !"wchar_size", i32 4}
!1 = !{i32 8, !"PIC Level", i32 2}
!2 = !{i32 7, !"PIE Level", i32 2}
!3 = !{i32 7, !"uwtable", i32 2}
!4 = !{!"clang version 19.1.7"}
!5 = !{!6, !6, i64 0}
!6 = !{!"omnipotent char", !7, i64 0}
!7 = !{!"Simple C/C++ TBAA"}
!8 = distinct !{!8, !9}
!9 = !{!"llvm.loop.mustprogress"}
!10 = distinct !{!10, !9}
!11 = !{!12, !12, i64 0}
!12 = !{!"any pointer", !6, i64 0}
!13 = !{!14, !12, i64 0}
!14 = !{!"text", !12, i64 0, !15, i64 8}
!15 = !{!"int", !6, i64 0}
!16 = !{!14, !15, i64 8}
!17 = !{!15, !15, i64 0}
!18 = !{!19, !19, i64 0}
!19 = !{!"short", !6, i64 0}
