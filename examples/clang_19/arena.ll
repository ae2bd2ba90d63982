; An allocator over an array: its functions carry what the compiler says of allocators. A tree of numbers is
; grown in it and summed up by recursion.
; In the manner of clang 19 -O1 with names kept. Returns 25.
; ModuleID = 'arena.c'
source_filename = "arena.c"
target datalayout = "e-m:e-p270:32:32-p271:32:32-p272:64:64-i64:64-i128:128-f80:128-n8:16:32:64-S128"
target triple = "x86_64-pc-linux-gnu"

%struct.node = type { i32, ptr, ptr }

@arena = internal global [1024 x i8] zeroinitializer, align 16
@taken = internal unnamed_addr global i64 0, align 8
@given = dso_local local_unnamed_addr constant [8 x i32] [i32 12, i32 5, i32 30, i32 7, i32 1, i32 5, i32 -4, i32 12], align 16

; Function Attrs: mustprogress nofree noinline norecurse nosync nounwind willreturn memory(readwrite, argmem: none, inaccessiblemem: none) allockind("alloc,zeroed") allocsize(0) uwtable
define dso_local noalias noundef ptr @take(i64 noundef %size) local_unnamed_addr #0 {
entry:
  %0 = load i64, ptr @taken, align 8, !tbaa !5
  %add = add i64 %size, 15
  %and = and i64 %add, -16
  %add1 = add i64 %and, %0
  %cmp = icmp ugt i64 %add1, 1024
  br i1 %cmp, label %return, label %if.end

if.end:                                           ; preds = %entry
  store i64 %add1, ptr @taken, align 8, !tbaa !5
  %add.ptr = getelementptr inbounds i8, ptr @arena, i64 %0
  br label %return

return:                                           ; preds = %if.end, %entry
  %retval.0 = phi ptr [ %add.ptr, %if.end ], [ null, %entry ]
  ret ptr %retval.0
}

; Puts a number into a tree; a tree that has it stays as it is.
; Function Attrs: nofree nosync nounwind uwtable
define dso_local noundef nonnull ptr @put(ptr noundef returned %place, i32 noundef %value) local_unnamed_addr #1 {
entry:
  br label %while.cond

while.cond:                                       ; preds = %if.end, %entry
  %place.addr.0 = phi ptr [ %place, %entry ], [ %cond, %if.end ]
  %0 = load ptr, ptr %place.addr.0, align 8, !tbaa !9
  %tobool.not = icmp eq ptr %0, null
  br i1 %tobool.not, label %while.end, label %while.body

while.body:                                       ; preds = %while.cond
  %1 = load i32, ptr %0, align 8, !tbaa !11
  %cmp = icmp eq i32 %1, %value
  br i1 %cmp, label %cleanup, label %if.end

if.end:                                           ; preds = %while.body
  %cmp3 = icmp sgt i32 %1, %value
  %left = getelementptr inbounds i8, ptr %0, i64 8
  %right = getelementptr inbounds i8, ptr %0, i64 16
  %cond = select i1 %cmp3, ptr %left, ptr %right
  br label %while.cond, !llvm.loop !14

while.end:                                        ; preds = %while.cond
  %call = tail call dereferenceable_or_null(24) ptr @take(i64 noundef 24) #4
  store ptr %call, ptr %place.addr.0, align 8, !tbaa !9
  %tobool5.not = icmp eq ptr %call, null
  br i1 %tobool5.not, label %cleanup, label %if.then6

if.then6:                                         ; preds = %while.end
  store i32 %value, ptr %call, align 8, !tbaa !11
  br label %cleanup

cleanup:                                          ; preds = %if.then6, %while.end, %while.body
  ret ptr %place
}

; The sum of the numbers of a tree, each times how far it is from the root, counted from 1.
; Function Attrs: nofree nosync nounwind memory(read, inaccessiblemem: none) uwtable
define dso_local i32 @weight(ptr noundef readonly %tree, i32 noundef %depth) local_unnamed_addr #2 {
entry:
  %tobool.not = icmp eq ptr %tree, null
  br i1 %tobool.not, label %return, label %if.end

if.end:                                           ; preds = %entry
  %0 = load i32, ptr %tree, align 8, !tbaa !11
  %mul = mul nsw i32 %0, %depth
  %left = getelementptr inbounds i8, ptr %tree, i64 8
  %1 = load ptr, ptr %left, align 8, !tbaa !16
  %add = add nsw i32 %depth, 1
  %call = tail call i32 @weight(ptr noundef %1, i32 noundef %add)
  %add1 = add nsw i32 %call, %mul
  %right = getelementptr inbounds i8, ptr %tree, i64 16
  %2 = load ptr, ptr %right, align 8, !tbaa !17
  %call3 = tail call i32 @weight(ptr noundef %2, i32 noundef %add)
  %add4 = add nsw i32 %add1, %call3
  br label %return

return:                                           ; preds = %if.end, %entry
  %retval.0 = phi i32 [ %add4, %if.end ], [ 0, %entry ]
  ret i32 %retval.0
}

; Function Attrs: nofree nounwind uwtable
define dso_local i32 @main() local_unnamed_addr #3 {
entry:
  %tree = alloca ptr, align 8
  call void @llvm.lifetime.start.p0(i64 8, ptr nonnull %tree) #6
  store ptr null, ptr %tree, align 8, !tbaa !9
  br label %for.body

for.cond.cleanup:                                 ; preds = %for.body
  %0 = load ptr, ptr %tree, align 8, !tbaa !9
  %call2 = call i32 @weight(ptr noundef %0, i32 noundef 1)
  %call3 = call i32 @weight(ptr noundef null, i32 noundef 1)
  %add = add nsw i32 %call3, %call2
  %sub = add nsw i32 %add, -65
  call void @llvm.lifetime.end.p0(i64 8, ptr nonnull %tree) #6
  ret i32 %sub

for.body:                                         ; preds = %for.body, %entry
  %i.0 = phi i64 [ 0, %entry ], [ %inc, %for.body ]
  %arrayidx = getelementptr inbounds [8 x i32], ptr @given, i64 0, i64 %i.0
  %1 = load i32, ptr %arrayidx, align 4, !tbaa !18
  %call = call ptr @put(ptr noundef nonnull %tree, i32 noundef %1)
  %inc = add nuw nsw i64 %i.0, 1
  %exitcond.not = icmp eq i64 %inc, 8
  br i1 %exitcond.not, label %for.cond.cleanup, label %for.body, !llvm.loop !19
}

; Function Attrs: mustprogress nocallback nofree nosync nounwind willreturn memory(argmem: readwrite)
declare void @llvm.lifetime.start.p0(i64 immarg, ptr nocapture) #5

; Function Attrs: mustprogress nocallback nofree nosync nounwind willreturn memory(argmem: readwrite)
declare void @llvm.lifetime.end.p0(i64 immarg, ptr nocapture) #5

attributes #0 = { mustprogress nofree noinline norecurse nosync nounwind willreturn allockind("alloc,zeroed") allocsize(0) memory(readwrite, argmem: none, inaccessiblemem: none) uwtable "alloc-family"="arena" "min-legal-vector-width"="0" "no-trapping-math"="true" "stack-protector-buffer-size"="8" "target-cpu"="x86-64" "target-features"="+cmov,+cx8,+fxsr,+mmx,+sse,+sse2,+x87" "tune-cpu"="generic" }
attributes #1 = { nofree nosync nounwind uwtable "min-legal-vector-width"="0" "no-trapping-math"="true" "stack-protector-buffer-size"="8" "target-cpu"="x86-64" "target-features"="+cmov,+cx8,+fxsr,+mmx,+sse,+sse2,+x87" "tune-cpu"="generic" }
attributes #2 = { nofree nosync nounwind memory(read, inaccessiblemem: none) uwtable "min-legal-vector-width"="0" "no-trapping-math"="true" "stack-protector-buffer-size"="8" "target-cpu"="x86-64" "target-features"="+cmov,+cx8,+fxsr,+mmx,+sse,+sse2,+x87" "tune-cpu"="generic" }
attributes #3 = { nofree nounwind uwtable "min-legal-vector-width"="0" "no-trapping-math"="true" "stack-protector-buffer-size"="8" "target-cpu"="x86-64" "target-features"="+cmov,+cx8,+fxsr,+mmx,+sse,+sse2,+x87" "tune-cpu"="generic" }
attributes #4 = { nounwind allocsize(0) }
attributes #5 = { mustprogress nocallback nofree nosync nounwind willreturn memory(argmem: readwrite) }
attributes #6 = { nounwind }

!llvm.module.flags = !{!0, !1, !2, !3}
!llvm.ident = !{!4}

!0 = !{i32 1, !"wchar_size", i32 4}
!1 = !{i32 8, !"PIC Level", i32 2}
!2 = !{i32 7, !"PIE Level", i32 2}
!3 = !{i32 7, !"uwtable", i32 2}
!4 = !{!"clang version 19.1.7"}
!5 = !{!6, !6, i64 0}
!6 = !{!"long", !7, i64 0}
!7 = !{!"omnipotent char", !8, i64 0}
!8 = !{!"Simple C/C++ TBAA"}
!9 = !{!10, !10, i64 0}
!10 = !{!"any pointer", !7, i64 0}
!11 = !{!12, !13, i64 0}
!12 = !{!"node", !13, i64 0, !10, i64 8, !10, i64 16}
!13 = !{!"int", !7, i64 0}
!14 = distinct !{!14, !15}
!15 = !{!"llvm.loop.mustprogress"}
!16 = !{!12, !10, i64 8}
!17 = !{!12, !10, i64 16}
!18 = !{!13, !13, i64 0}
!19 = distinct !{!19, !15}
