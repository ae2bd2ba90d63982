; What a function captures of a pointer that it is given, lifetime markers without a size, and structures
; that are initialised through a pointer: the longest run of equal bytes of the input.
; In the manner of releases of clang after 20, with -O2. Returns 4.
; ModuleID = 'captures.c'
source_filename = "captures.c"
target datalayout = "e-m:e-p270:32:32-p271:32:32-p272:64:64-i64:64-i128:128-f80:128-n8:16:32:64-S128"
target triple = "x86_64-unknown-linux-gnu"

%struct.run = type { i32, i32, i8 }

; Function Attrs: mustprogress nofree norecurse nosync nounwind willreturn memory(argmem: write) uwtable
define dso_local void @begin(ptr noundef writeonly captures(none) initializes((0, 9)) %0, i8 noundef signext %1) local_unnamed_addr #0 {
  store i32 0, ptr %0, align 4, !tbaa !9
  %3 = getelementptr inbounds nuw i8, ptr %0, i64 4
  store i32 1, ptr %3, align 4, !tbaa !11
  %4 = getelementptr inbounds nuw i8, ptr %0, i64 8
  store i8 %1, ptr %4, align 4, !tbaa !12
  ret void
}

; Function Attrs: mustprogress nofree norecurse nosync nounwind willreturn memory(argmem: read) uwtable
define dso_local noundef nonnull ptr @longer(ptr noundef nonnull readonly captures(ret: address, provenance) %0, ptr noundef nonnull readonly captures(ret: address, provenance) %1) local_unnamed_addr #1 {
  %3 = getelementptr inbounds nuw i8, ptr %0, i64 4
  %4 = load i32, ptr %3, align 4, !tbaa !11
  %5 = getelementptr inbounds nuw i8, ptr %1, i64 4
  %6 = load i32, ptr %5, align 4, !tbaa !11
  %7 = icmp slt i32 %4, %6
  %8 = select i1 %7, ptr %1, ptr %0
  ret ptr %8
}

; Function Attrs: nofree nounwind uwtable
define dso_local i32 @main() local_unnamed_addr #2 {
  %1 = alloca [2 x %struct.run], align 16
  call void @llvm.lifetime.start.p0(ptr nonnull %1) #5
  call void @begin(ptr noundef nonnull %1, i8 noundef signext 0)
  %2 = getelementptr inbounds nuw i8, ptr %1, i64 12
  call void @begin(ptr noundef nonnull %2, i8 noundef signext 0)
  br label %3

3:                                                ; preds = %20, %0
  %4 = phi i8 [ 0, %0 ], [ %9, %20 ]
  %5 = phi i32 [ 0, %0 ], [ %21, %20 ]
  %6 = tail call i32 @getchar()
  %7 = icmp eq i32 %6, -1
  br i1 %7, label %22, label %8

8:                                                ; preds = %3
  %9 = trunc i32 %6 to i8
  %10 = icmp eq i8 %9, %4
  br i1 %10, label %11, label %15

11:                                               ; preds = %8
  %12 = getelementptr inbounds nuw i8, ptr %1, i64 16
  %13 = load i32, ptr %12, align 4, !tbaa !11
  %14 = add nsw i32 %13, 1
  store i32 %14, ptr %12, align 4, !tbaa !11
  br label %16

15:                                               ; preds = %8
  call void @begin(ptr noundef nonnull %2, i8 noundef signext %9)
  store i32 %5, ptr %2, align 4, !tbaa !9
  br label %16

16:                                               ; preds = %15, %11
  %17 = call ptr @longer(ptr noundef nonnull %1, ptr noundef nonnull %2)
  %18 = icmp eq ptr %17, %1
  br i1 %18, label %20, label %19

19:                                               ; preds = %16
  %.at = load i32, ptr %2, align 4, !tbaa !9
  store i32 %.at, ptr %1, align 16, !tbaa !9
  %.length.p = getelementptr inbounds nuw i8, ptr %2, i64 4
  %.length = load i32, ptr %.length.p, align 4, !tbaa !11
  %.best.p = getelementptr inbounds nuw i8, ptr %1, i64 4
  store i32 %.length, ptr %.best.p, align 4, !tbaa !11
  %.byte.p = getelementptr inbounds nuw i8, ptr %1, i64 8
  store i8 %9, ptr %.byte.p, align 8, !tbaa !12
  br label %20

20:                                               ; preds = %19, %16
  %21 = add nuw nsw i32 %5, 1
  br label %3, !llvm.loop !13

22:                                               ; preds = %3
  %23 = getelementptr inbounds nuw i8, ptr %1, i64 8
  %24 = load i8, ptr %23, align 8, !tbaa !12
  %25 = sext i8 %24 to i32
  %26 = tail call i32 @putchar(i32 noundef %25)
  %27 = getelementptr inbounds nuw i8, ptr %1, i64 4
  %28 = load i32, ptr %27, align 4, !tbaa !11
  call void @llvm.lifetime.end.p0(ptr nonnull %1) #5
  ret i32 %28
}

; Function Attrs: mustprogress nocallback nofree nosync nounwind willreturn memory(argmem: readwrite)
declare void @llvm.lifetime.start.p0(ptr captures(none)) #3

; Function Attrs: mustprogress nocallback nofree nosync nounwind willreturn memory(argmem: readwrite)
declare void @llvm.lifetime.end.p0(ptr captures(none)) #3

; Function Attrs: nofree nounwind
declare noundef i32 @getchar() local_unnamed_addr #4

; Function Attrs: nofree nounwind
declare noundef i32 @putchar(i32 noundef) local_unnamed_addr #4

attributes #0 = { mustprogress nofree norecurse nosync nounwind willreturn memory(argmem: write) uwtable "min-legal-vector-width"="0" "no-trapping-math"="true" "stack-protector-buffer-size"="8" "target-cpu"="x86-64" "target-features"="+cmov,+cx8,+fxsr,+mmx,+sse,+sse2,+x87" "tune-cpu"="generic" }
attributes #1 = { mustprogress nofree norecurse nosync nounwind willreturn memory(argmem: read) uwtable "min-legal-vector-width"="0" "no-trapping-math"="true" "stack-protector-buffer-size"="8" "target-cpu"="x86-64" "target-features"="+cmov,+cx8,+fxsr,+mmx,+sse,+sse2,+x87" "tune-cpu"="generic" }
attributes #2 = { nofree nounwind uwtable "min-legal-vector-width"="0" "no-trapping-math"="true" "stack-protector-buffer-size"="8" "target-cpu"="x86-64" "target-features"="+cmov,+cx8,+fxsr,+mmx,+sse,+sse2,+x87" "tune-cpu"="generic" }
attributes #3 = { mustprogress nocallback nofree nosync nounwind willreturn memory(argmem: readwrite) }
attributes #4 = { nofree nounwind "no-trapping-math"="true" "stack-protector-buffer-size"="8" "target-cpu"="x86-64" "target-features"="+cmov,+cx8,+fxsr,+mmx,+sse,+sse2,+x87" "tune-cpu"="generic" }
attributes #5 = { nounwind }

!llvm.module.flags = !{!0, !1, !2, !3}
!llvm.ident = !{!4}
!llvm.errno.tbaa = !{!5}

!0 = !{i32 1, !"wchar_size", i32 4}
!1 = !{i32 8, !"PIC Level", i32 2}
!2 = !{i32 7, !"PIE Level", i32 2}
!3 = !{i32 7, !"uwtable", i32 2}
!4 = !{!"clang version 22.0.0"}
!5 = !{!6, !6, i64 0}
!6 = !{!"int", !7, i64 0}
!7 = !{!"omnipotent char", !8, i64 0}
!8 = !{!"Simple C/C++ TBAA"}
!9 = !{!10, !6, i64 0}
!10 = !{!"run", !6, i64 0, !6, i64 4, !7, i64 8}
!11 = !{!10, !6, i64 4}
!12 = !{!10, !7, i64 8}
!13 = distinct !{!13, !14}
!14 = !{!"llvm.loop.mustprogress"}
