; In the manner of clang 14 with -O0: a walk over a grid, whose directions are written, from a place that stands
; in a structure of a variable. Each kind of line that a compiler's module has stands here.
source_filename = "walk.c"
target datalayout = "e-m:e-p270:32:32-p271:32:32-p272:64:64-i64:64-f80:128-n8:16:32:64-S128"
target triple = "x86_64-pc-linux-gnu"

%struct.walker = type { i32, i32, %struct.memory }
%struct.memory = type { [4 x i16], i64 }

$turned = comdat any

@walker = dso_local global %struct.walker { i32 2, i32 -3, %struct.memory { [4 x i16] [i16 1, i16 0, i16 -1, i16 0], i64 0 } }, align 8
@step.calls = internal global i32 0, align 4
@.str = private unnamed_addr constant [5 x i8] c"NESW\00", align 1

; Function Attrs: noinline nounwind uwtable
define dso_local i32 @walk(i32 noundef %0) #0 {
  %2 = alloca i32, align 4
  %3 = alloca i32, align 4
  store i32 %0, ptr %2, align 4
  call void @llvm.lifetime.start.p0(i64 4, ptr %3) #2
  store i32 0, ptr %3, align 4
  br label %4

4:                                                ; preds = %11, %1
  %5 = load i32, ptr %3, align 4, !tbaa !5
  %6 = load i32, ptr %2, align 4, !tbaa !5
  %7 = icmp slt i32 %5, %6
  br i1 %7, label %8, label %14

8:                                                ; preds = %4
  %9 = load i32, ptr %3, align 4, !tbaa !5
  %10 = call i32 @turned(i32 noundef %9)
  call void @step(i32 noundef %10)
  br label %11

11:                                               ; preds = %8
  %12 = load i32, ptr %3, align 4, !tbaa !5
  %13 = add nsw i32 %12, 1
  store i32 %13, ptr %3, align 4, !tbaa !5
  br label %4, !llvm.loop !9

14:                                               ; preds = %4
  call void @llvm.lifetime.end.p0(i64 4, ptr %3) #2
  %15 = load i32, ptr @walker, align 8, !tbaa !5
  %16 = load i32, ptr getelementptr inbounds (%struct.walker, ptr @walker, i64 0, i32 1), align 4, !tbaa !5
  %17 = mul nsw i32 %15, 1000
  %18 = add nsw i32 %17, %16
  ret i32 %18
}

; Function Attrs: noinline nounwind uwtable
define linkonce_odr dso_local i32 @turned(i32 noundef %0) #0 comdat {
  %2 = mul i32 %0, -1640531527
  %3 = lshr i32 %2, 30
  ret i32 %3
}

; Function Attrs: noinline nounwind uwtable
define internal void @step(i32 noundef %0) #0 {
  %2 = load i32, ptr @step.calls, align 4, !tbaa !5
  %3 = add nsw i32 %2, 1
  store i32 %3, ptr @step.calls, align 4, !tbaa !5
  %4 = zext i32 %0 to i64
  %5 = getelementptr inbounds [5 x i8], ptr @.str, i64 0, i64 %4
  %6 = load i8, ptr %5, align 1, !tbaa !8
  %7 = sext i8 %6 to i32
  %8 = tail call i32 @putchar(i32 noundef %7)
  switch i32 %0, label %13 [
    i32 0, label %9
    i32 2, label %9
    i32 1, label %11
    i32 3, label %11
  ]

9:                                                ; preds = %1, %1
  %10 = getelementptr inbounds %struct.walker, ptr @walker, i64 0, i32 1
  br label %14

11:                                               ; preds = %1, %1
  %12 = xor i32 %0, 2
  br label %14

13:                                               ; preds = %1
  unreachable

14:                                               ; preds = %11, %9
  %15 = phi ptr [ %10, %9 ], [ @walker, %11 ]
  %16 = phi i32 [ %0, %9 ], [ %12, %11 ]
  %17 = zext i32 %16 to i64
  %18 = getelementptr inbounds %struct.walker, ptr @walker, i64 0, i32 2, i32 0, i64 %17
  %19 = load i16, ptr %18, align 2, !tbaa !11
  %20 = sext i16 %19 to i32
  %21 = load i32, ptr %15, align 4, !tbaa !5
  %22 = add nsw i32 %21, %20
  store i32 %22, ptr %15, align 4, !tbaa !5
  ret void
}

declare i32 @putchar(i32 noundef) #1

; Function Attrs: argmemonly nocallback nofree nosync nounwind willreturn
declare void @llvm.lifetime.start.p0(i64 immarg, ptr nocapture) #2
declare void @llvm.lifetime.end.p0(i64 immarg, ptr nocapture) #2

attributes #0 = { noinline nounwind uwtable "frame-pointer"="all" "min-legal-vector-width"="0" }
attributes #1 = { nounwind "frame-pointer"="all" }
attributes #2 = { argmemonly nocallback nofree nosync nounwind willreturn }

!llvm.module.flags = !{!0, !1}
!llvm.ident = !{!2}

!0 = !{i32 1, !"wchar_size", i32 4}
!1 = !{i32 7, !"PIC Level", i32 2}
!2 = !{!"a compiler of C"}
!3 = !{!"omnipotent char", !4, i64 0}
!4 = !{!"Simple C/C++ TBAA"}
!5 = !{!6, !6, i64 0}
!6 = !{!"int", !3, i64 0}
!7 = !{!"short", !3, i64 0}
!8 = !{!3, !3, i64 0}
!9 = distinct !{!9, !10}
!10 = !{!"llvm.loop.mustprogress"}
!11 = !{!7, !7, i64 0}
