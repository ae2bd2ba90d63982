; Words on what numbers can be: ranges of results and of loads, extensions that meet no sign, sums without a
; carry as `or disjoint`, and addresses by bytes.
; In the manner of clang 19 -O2. Returns 77.
; ModuleID = 'ranges.c'
source_filename = "ranges.c"
target datalayout = "e-m:e-p270:32:32-p271:32:32-p272:64:64-i64:64-i128:128-f80:128-n8:16:32:64-S128"
target triple = "x86_64-pc-linux-gnu"

@shades = dso_local local_unnamed_addr global [6 x i8] c"\05\00\0C\FF\80\07", align 1

; Function Attrs: mustprogress nofree norecurse nosync nounwind willreturn memory(none) uwtable
define dso_local range(i32 0, 16) i32 @nibble(i8 noundef zeroext %0, i1 noundef zeroext %1) local_unnamed_addr #0 {
  %3 = zext i8 %0 to i32
  %4 = lshr i32 %3, 4
  %5 = and i32 %3, 15
  %6 = select i1 %1, i32 %4, i32 %5
  ret i32 %6
}

; Function Attrs: mustprogress nofree norecurse nosync nounwind willreturn memory(none) uwtable
define dso_local signext range(i8 48, 103) i8 @figure(i32 noundef %0) local_unnamed_addr #0 {
  %2 = icmp slt i32 %0, 10
  %3 = trunc nsw i32 %0 to i8
  %4 = or disjoint i8 %3, 48
  %5 = add nuw nsw i8 %3, 87
  %6 = select i1 %2, i8 %4, i8 %5
  ret i8 %6
}

; Function Attrs: nofree nounwind uwtable
define dso_local i32 @main() local_unnamed_addr #1 {
  br label %1

1:                                                ; preds = %1, %0
  %2 = phi i64 [ 0, %0 ], [ %21, %1 ]
  %3 = phi i32 [ 0, %0 ], [ %20, %1 ]
  %4 = getelementptr inbounds i8, ptr @shades, i64 %2
  %5 = load i8, ptr %4, align 1, !tbaa !5
  %6 = tail call range(i32 0, 16) i32 @nibble(i8 noundef zeroext %5, i1 noundef zeroext true) #3
  %7 = tail call signext i8 @figure(i32 noundef %6) #3
  %8 = zext nneg i8 %7 to i32
  %9 = tail call i32 @putchar(i32 noundef %8)
  %10 = tail call range(i32 0, 16) i32 @nibble(i8 noundef zeroext %5, i1 noundef zeroext false) #3
  %11 = tail call signext i8 @figure(i32 noundef %10) #3
  %12 = zext nneg i8 %11 to i32
  %13 = tail call i32 @putchar(i32 noundef %12)
  %14 = shl nuw nsw i64 %2, 1
  %15 = or disjoint i64 %14, 1
  %16 = trunc nuw nsw i64 %15 to i32
  %17 = icmp slt i8 %5, 0
  %18 = add nuw nsw i32 %16, 10
  %19 = select i1 %17, i32 %18, i32 %16
  %20 = add nuw nsw i32 %19, %3
  %21 = add nuw nsw i64 %2, 1
  %22 = icmp eq i64 %21, 6
  br i1 %22, label %23, label %1, !llvm.loop !8

23:                                               ; preds = %1
  %24 = load i8, ptr getelementptr inbounds (i8, ptr @shades, i64 5), align 1, !tbaa !5, !range !10, !noundef !11
  %25 = zext nneg i8 %24 to i32
  %26 = mul nuw nsw i32 %25, 3
  %27 = add nuw nsw i32 %20, %26
  ret i32 %27
}

; Function Attrs: nofree nounwind
declare noundef i32 @putchar(i32 noundef) local_unnamed_addr #2

attributes #0 = { mustprogress nofree norecurse nosync nounwind willreturn memory(none) uwtable "min-legal-vector-width"="0" "no-trapping-math"="true" "stack-protector-buffer-size"="8" "target-cpu"="x86-64" "target-features"="+cmov,+cx8,+fxsr,+mmx,+sse,+sse2,+x87" "tune-cpu"="generic" }
attributes #1 = { nofree nounwind uwtable "min-legal-vector-width"="0" "no-trapping-math"="true" "stack-protector-buffer-size"="8" "target-cpu"="x86-64" "target-features"="+cmov,+cx8,+fxsr,+mmx,+sse,+sse2,+x87" "tune-cpu"="generic" }
attributes #2 = { nofree nounwind "no-trapping-math"="true" "stack-protector-buffer-size"="8" "target-cpu"="x86-64" "target-features"="+cmov,+cx8,+fxsr,+mmx,+sse,+sse2,+x87" "tune-cpu"="generic" }
attributes #3 = { nounwind }

!llvm.module.flags = !{!0, !1, !2, !3}
!llvm.ident = !{!4}

!0 = !{i32 1, !"wchar_size", i32 4}
!1 = !{i32 8, !"PIC Level", i32 2}
!2 = !{i32 7, !"PIE Level", i32 2}
!3 = !{i32 7, !"uwtable", i32 2}
!4 = !{!"clang version 19.1.7"}
!5 = !{!6, !6, i64 0}
!6 = !{!"omnipotent char", !7, i64 0}
!7 = !{!"Simple C/C++ TBAA"}
!8 = distinct !{!8, !9}
!9 = !{!"llvm.loop.mustprogress"}
!10 = !{i8 0, i8 64}
!11 = !{}
