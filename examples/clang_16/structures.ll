; Named structures within structures, a list of them that stands in globals, and one that grows on the stack.
; In the manner of clang 16 -O1 with names kept. Returns 81.
; ModuleID = 'structures.c'
source_filename = "structures.c"
target datalayout = "e-m:e-p270:32:32-p271:32:32-p272:64:64-i64:64-f80:128-n8:16:32:64-S128"
target triple = "x86_64-pc-linux-gnu"

%struct.stop = type { %struct.place, i16, ptr }
%struct.place = type { i32, i32, i8 }
%struct.line = type { ptr, [2 x %struct.place], i64 }

@harbour = internal global %struct.stop { %struct.place { i32 3, i32 4, i8 104 }, i16 12, ptr @market }, align 8
@market = internal global %struct.stop { %struct.place { i32 6, i32 8, i8 109 }, i16 -5, ptr @station }, align 8
@station = internal global %struct.stop { %struct.place { i32 -1, i32 7, i8 115 }, i16 300, ptr null }, align 8
@lines = dso_local local_unnamed_addr global [2 x %struct.line] [%struct.line { ptr @harbour, [2 x %struct.place] [%struct.place { i32 1, i32 2, i8 97 }, %struct.place { i32 3, i32 4, i8 98 }], i64 5 }, %struct.line zeroinitializer], align 16

; Function Attrs: nofree norecurse nosync nounwind memory(read, inaccessiblemem: none) uwtable
define dso_local i32 @way(ptr nocapture noundef readonly %from, ptr nocapture noundef readonly %to) local_unnamed_addr #0 {
entry:
  %0 = load i32, ptr %from, align 4, !tbaa !5
  %1 = load i32, ptr %to, align 4, !tbaa !5
  %sub = sub nsw i32 %0, %1
  %cmp = icmp slt i32 %sub, 0
  %neg = sub nsw i32 0, %sub
  %abs = select i1 %cmp, i32 %neg, i32 %sub
  %y = getelementptr inbounds %struct.place, ptr %from, i64 0, i32 1
  %2 = load i32, ptr %y, align 4, !tbaa !10
  %y1 = getelementptr inbounds %struct.place, ptr %to, i64 0, i32 1
  %3 = load i32, ptr %y1, align 4, !tbaa !10
  %sub2 = sub nsw i32 %2, %3
  %cmp3 = icmp slt i32 %sub2, 0
  %neg4 = sub nsw i32 0, %sub2
  %abs5 = select i1 %cmp3, i32 %neg4, i32 %sub2
  %add = add nuw nsw i32 %abs5, %abs
  ret i32 %add
}

; Function Attrs: nofree nounwind uwtable
define dso_local i32 @length(ptr noundef readonly %first) local_unnamed_addr #1 {
entry:
  %tobool.not = icmp eq ptr %first, null
  br i1 %tobool.not, label %for.end, label %for.cond

for.cond:                                         ; preds = %for.body, %entry
  %stop = phi ptr [ %0, %for.body ], [ %first, %entry ]
  %sum = phi i32 [ %add, %for.body ], [ 0, %entry ]
  %next = getelementptr inbounds %struct.stop, ptr %stop, i64 0, i32 2
  %0 = load ptr, ptr %next, align 8, !tbaa !11
  %tag = getelementptr inbounds %struct.stop, ptr %stop, i64 0, i32 0, i32 2
  %1 = load i8, ptr %tag, align 4, !tbaa !15
  %conv = sext i8 %1 to i32
  %call = tail call i32 @putchar(i32 noundef %conv)
  %tobool1.not = icmp eq ptr %0, null
  br i1 %tobool1.not, label %for.end, label %for.body

for.body:                                         ; preds = %for.cond
  %call2 = tail call i32 @way(ptr noundef nonnull %stop, ptr noundef nonnull %0)
  %add = add nsw i32 %call2, %sum
  br label %for.cond, !llvm.loop !16

for.end:                                          ; preds = %for.cond, %entry
  %sum.lcssa = phi i32 [ 0, %entry ], [ %sum, %for.cond ]
  ret i32 %sum.lcssa
}

; Function Attrs: nofree nounwind uwtable
define dso_local i32 @main() local_unnamed_addr #1 {
entry:
  %garden = alloca %struct.stop, align 8
  call void @llvm.lifetime.start.p0(i64 24, ptr nonnull %garden) #4
  store i32 10, ptr %garden, align 8, !tbaa !18
  %y = getelementptr inbounds %struct.stop, ptr %garden, i64 0, i32 0, i32 1
  store i32 50, ptr %y, align 4, !tbaa !19
  %tag = getelementptr inbounds %struct.stop, ptr %garden, i64 0, i32 0, i32 2
  store i8 103, ptr %tag, align 8, !tbaa !15
  %minutes = getelementptr inbounds %struct.stop, ptr %garden, i64 0, i32 1
  store i16 8, ptr %minutes, align 4, !tbaa !20
  %next = getelementptr inbounds %struct.stop, ptr %garden, i64 0, i32 2
  store ptr null, ptr %next, align 8, !tbaa !11
  store ptr %garden, ptr getelementptr inbounds (%struct.stop, ptr @station, i64 0, i32 2), align 8, !tbaa !11
  %0 = load ptr, ptr @lines, align 16, !tbaa !21
  %call = call i32 @length(ptr noundef %0)
  %1 = load i64, ptr getelementptr inbounds ([2 x %struct.line], ptr @lines, i64 0, i64 0, i32 2), align 8, !tbaa !24
  %2 = load i32, ptr getelementptr inbounds ([2 x %struct.line], ptr @lines, i64 0, i64 0, i32 1, i64 1, i32 1), align 8, !tbaa !10
  %3 = trunc i64 %1 to i32
  %4 = load i16, ptr getelementptr inbounds (%struct.stop, ptr @market, i64 0, i32 1), align 4, !tbaa !20
  %conv = sext i16 %4 to i32
  %5 = load i16, ptr %minutes, align 4, !tbaa !20
  %conv1 = sext i16 %5 to i32
  %6 = load ptr, ptr getelementptr inbounds ([2 x %struct.line], ptr @lines, i64 0, i64 1), align 8, !tbaa !21
  %call2 = call i32 @length(ptr noundef %6)
  %add = add nsw i32 %call2, %call
  %add3 = add nsw i32 %add, %3
  %add4 = add nsw i32 %add3, %2
  %add5 = add nsw i32 %add4, %conv
  %add6 = add nsw i32 %add5, %conv1
  call void @llvm.lifetime.end.p0(i64 24, ptr nonnull %garden) #4
  ret i32 %add6
}

; Function Attrs: nofree nounwind
declare noundef i32 @putchar(i32 noundef) local_unnamed_addr #2

; Function Attrs: mustprogress nocallback nofree nosync nounwind willreturn memory(argmem: readwrite)
declare void @llvm.lifetime.start.p0(i64 immarg, ptr nocapture) #3

; Function Attrs: mustprogress nocallback nofree nosync nounwind willreturn memory(argmem: readwrite)
declare void @llvm.lifetime.end.p0(i64 immarg, ptr nocapture) #3

attributes #0 = { nofree norecurse nosync nounwind memory(read, inaccessiblemem: none) uwtable "min-legal-vector-width"="0" "no-trapping-math"="true" "stack-protector-buffer-size"="8" "target-cpu"="x86-64" "target-features"="+cx8,+fxsr,+mmx,+sse,+sse2,+x87" "tune-cpu"="generic" }
attributes #1 = { nofree nounwind uwtable "min-legal-vector-width"="0" "no-trapping-math"="true" "stack-protector-buffer-size"="8" "target-cpu"="x86-64" "target-features"="+cx8,+fxsr,+mmx,+sse,+sse2,+x87" "tune-cpu"="generic" }
attributes #2 = { nofree nounwind "no-trapping-math"="true" "stack-protector-buffer-size"="8" "target-cpu"="x86-64" "target-features"="+cx8,+fxsr,+mmx,+sse,+sse2,+x87" "tune-cpu"="generic" }
attributes #3 = { mustprogress nocallback nofree nosync nounwind willreturn memory(argmem: readwrite) }
attributes #4 = { nounwind }

!llvm.module.flags = !{!0, !1, !2, !3}
!llvm.ident = !{!4}

!0 = !{i32 1, !"wchar_size", i32 4}
!1 = !{i32 8, !"PIC Level", i32 2}
!2 = !{i32 7, !"PIE Level", i32 2}
!3 = !{i32 7, !"uwtable", i32 2}
!4 = !{!"clang version 16.0.6"}
!5 = !{!6, !7, i64 0}
!6 = !{!"place", !7, i64 0, !7, i64 4, !8, i64 8}
!7 = !{!"int", !8, i64 0}
!8 = !{!"omnipotent char", !9, i64 0}
!9 = !{!"Simple C/C++ TBAA"}
!10 = !{!6, !7, i64 4}
!11 = !{!12, !14, i64 16}
!12 = !{!"stop", !6, i64 0, !13, i64 12, !14, i64 16}
!13 = !{!"short", !8, i64 0}
!14 = !{!"any pointer", !8, i64 0}
!15 = !{!12, !8, i64 8}
!16 = distinct !{!16, !17}
!17 = !{!"llvm.loop.mustprogress"}
!18 = !{!12, !7, i64 0}
!19 = !{!12, !7, i64 4}
!20 = !{!12, !13, i64 12}
!21 = !{!22, !14, i64 0}
!22 = !{!"line", !14, i64 0, !8, i64 8, !23, i64 32}
!23 = !{!"long", !8, i64 0}
!24 = !{!22, !23, i64 32}
