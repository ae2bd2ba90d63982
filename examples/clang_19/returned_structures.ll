; Structures that are returned through a pointer of the caller: quotients with their remainders, and the
; greatest common divisor by them.
; In the manner of clang 19 -O1. Returns 21.
; ModuleID = 'returned_structures.c'
source_filename = "returned_structures.c"
target datalayout = "e-m:e-p270:32:32-p271:32:32-p272:64:64-i64:64-i128:128-f80:128-n8:16:32:64-S128"
target triple = "x86_64-pc-linux-gnu"

%struct.division = type { i64, i64, i8 }

; Function Attrs: mustprogress nofree noinline norecurse nosync nounwind willreturn memory(argmem: write) uwtable
define dso_local void @divide(ptr dead_on_unwind noalias nocapture writable writeonly sret(%struct.division) align 8 %0, i64 noundef %1, i64 noundef %2) local_unnamed_addr #0 {
  %4 = icmp eq i64 %2, 0
  br i1 %4, label %5, label %7

5:                                                ; preds = %3
  store i64 0, ptr %0, align 8, !tbaa !5
  %6 = getelementptr inbounds i8, ptr %0, i64 8
  store i64 %1, ptr %6, align 8, !tbaa !11
  br label %11

7:                                                ; preds = %3
  %8 = udiv i64 %1, %2
  store i64 %8, ptr %0, align 8, !tbaa !5
  %9 = getelementptr inbounds i8, ptr %0, i64 8
  %10 = urem i64 %1, %2
  store i64 %10, ptr %9, align 8, !tbaa !11
  br label %11

11:                                               ; preds = %7, %5
  %12 = phi i8 [ 0, %5 ], [ 1, %7 ]
  %13 = getelementptr inbounds i8, ptr %0, i64 16
  store i8 %12, ptr %13, align 8, !tbaa !12
  ret void
}

; Function Attrs: nofree nosync nounwind memory(none) uwtable
define dso_local i64 @gcd(i64 noundef %0, i64 noundef %1) local_unnamed_addr #1 {
  %3 = alloca %struct.division, align 8
  br label %4

4:                                                ; preds = %11, %2
  %5 = phi i64 [ %0, %2 ], [ %6, %11 ]
  %6 = phi i64 [ %1, %2 ], [ %13, %11 ]
  call void @llvm.lifetime.start.p0(i64 24, ptr nonnull %3) #4
  call void @divide(ptr dead_on_unwind nonnull writable sret(%struct.division) align 8 %3, i64 noundef %5, i64 noundef %6) #4
  %7 = getelementptr inbounds i8, ptr %3, i64 16
  %8 = load i8, ptr %7, align 8, !tbaa !12, !range !13, !noundef !14
  %9 = trunc nuw i8 %8 to i1
  br i1 %9, label %11, label %10

10:                                               ; preds = %4
  call void @llvm.lifetime.end.p0(i64 24, ptr nonnull %3) #4
  ret i64 %5

11:                                               ; preds = %4
  %12 = getelementptr inbounds i8, ptr %3, i64 8
  %13 = load i64, ptr %12, align 8, !tbaa !11
  call void @llvm.lifetime.end.p0(i64 24, ptr nonnull %3) #4
  br label %4, !llvm.loop !15
}

; Function Attrs: nounwind uwtable
define dso_local noundef i32 @main() local_unnamed_addr #2 {
  %1 = tail call i64 @gcd(i64 noundef 1071, i64 noundef 462)
  %2 = trunc i64 %1 to i32
  ret i32 %2
}

; Function Attrs: mustprogress nocallback nofree nosync nounwind willreturn memory(argmem: readwrite)
declare void @llvm.lifetime.start.p0(i64 immarg, ptr nocapture) #3

; Function Attrs: mustprogress nocallback nofree nosync nounwind willreturn memory(argmem: readwrite)
declare void @llvm.lifetime.end.p0(i64 immarg, ptr nocapture) #3

attributes #0 = { mustprogress nofree noinline norecurse nosync nounwind willreturn memory(argmem: write) uwtable "min-legal-vector-width"="0" "no-trapping-math"="true" "stack-protector-buffer-size"="8" "target-cpu"="x86-64" "target-features"="+cmov,+cx8,+fxsr,+mmx,+sse,+sse2,+x87" "tune-cpu"="generic" }
attributes #1 = { nofree nosync nounwind memory(none) uwtable "min-legal-vector-width"="0" "no-trapping-math"="true" "stack-protector-buffer-size"="8" "target-cpu"="x86-64" "target-features"="+cmov,+cx8,+fxsr,+mmx,+sse,+sse2,+x87" "tune-cpu"="generic" }
attributes #2 = { nounwind uwtable "min-legal-vector-width"="0" "no-trapping-math"="true" "stack-protector-buffer-size"="8" "target-cpu"="x86-64" "target-features"="+cmov,+cx8,+fxsr,+mmx,+sse,+sse2,+x87" "tune-cpu"="generic" }
attributes #3 = { mustprogress nocallback nofree nosync nounwind willreturn memory(argmem: readwrite) }
attributes #4 = { nounwind }

!llvm.module.flags = !{!0, !1, !2, !3}
!llvm.ident = !{!4}

!0 = !{i32 1, !"wchar_size", i32 4}
!1 = !{i32 8, !"PIC Level", i32 2}
!2 = !{i32 7, !"PIE Level", i32 2}
!3 = !{i32 7, !"uwtable", i32 2}
!4 = !{!"clang version 19.1.7"}
!5 = !{!6, !7, i64 0}
!6 = !{!"division", !7, i64 0, !7, i64 8, !10, i64 16}
!7 = !{!"long", !8, i64 0}
!8 = !{!"omnipotent char", !9, i64 0}
!9 = !{!"Simple C/C++ TBAA"}
!10 = !{!"_Bool", !8, i64 0}
!11 = !{!6, !7, i64 8}
!12 = !{!6, !10, i64 16}
!13 = !{i8 0, i8 2}
!14 = !{}
!15 = distinct !{!15, !16}
!16 = !{!"llvm.loop.mustprogress"}
