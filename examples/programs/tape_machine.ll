; An interpreter of the language of eight commands `><+-.,[]` over a tape of 256 cells. Its input is a
; program, an exclamation mark, and what the program reads; other characters of a program are comments.
; Brackets that don't match are answered with a question mark.
; In the manner of clang 16 with -O1 and names kept. Returns 0.
source_filename = "tape_machine.c"
target datalayout = "e-m:e-p270:32:32-p271:32:32-p272:64:64-i64:64-f80:128-n8:16:32:64-S128"
target triple = "x86_64-pc-linux-gnu"

@code = internal unnamed_addr global [1024 x i8] zeroinitializer, align 16
@jumps = internal unnamed_addr global [1024 x i32] zeroinitializer, align 16
@cells = internal unnamed_addr global [256 x i8] zeroinitializer, align 16

; Reads the program, up to an exclamation mark or the end; gives its length.
; Function Attrs: nofree nounwind uwtable
define internal fastcc i32 @load_code() unnamed_addr #0 {
entry:
  br label %while.cond

while.cond:                                       ; preds = %if.end, %entry
  %length = phi i32 [ 0, %entry ], [ %length.next, %if.end ]
  %c = tail call i32 @getchar() #4
  switch i32 %c, label %if.else [
    i32 -1, label %while.end
    i32 33, label %while.end
  ]

if.else:                                          ; preds = %while.cond
  %full = icmp eq i32 %length, 1024
  br i1 %full, label %if.end, label %if.then

if.then:                                          ; preds = %if.else
  %conv = trunc i32 %c to i8
  %idxprom = zext i32 %length to i64
  %arrayidx = getelementptr inbounds [1024 x i8], ptr @code, i64 0, i64 %idxprom
  store i8 %conv, ptr %arrayidx, align 1, !tbaa !5
  %inc = add nuw nsw i32 %length, 1
  br label %if.end

if.end:                                           ; preds = %if.then, %if.else
  %length.next = phi i32 [ %inc, %if.then ], [ 1024, %if.else ]
  br label %while.cond, !llvm.loop !8

while.end:                                        ; preds = %while.cond, %while.cond
  ret i32 %length
}

; Writes into the table of jumps where each bracket's other one is; says whether each has one.
; Function Attrs: nofree norecurse nosync nounwind memory(readwrite, inaccessiblemem: none) uwtable
define internal fastcc zeroext i1 @match(i32 noundef %length) unnamed_addr #1 {
entry:
  %open = alloca [128 x i32], align 16
  call void @llvm.lifetime.start.p0(i64 512, ptr nonnull %open) #5
  br label %for.cond

for.cond:                                         ; preds = %for.inc, %entry
  %i = phi i32 [ 0, %entry ], [ %inc, %for.inc ]
  %depth = phi i32 [ 0, %entry ], [ %depth.next, %for.inc ]
  %cmp = icmp ult i32 %i, %length
  br i1 %cmp, label %for.body, label %for.end

for.body:                                         ; preds = %for.cond
  %idxprom = zext i32 %i to i64
  %arrayidx = getelementptr inbounds [1024 x i8], ptr @code, i64 0, i64 %idxprom
  %command = load i8, ptr %arrayidx, align 1, !tbaa !5
  switch i8 %command, label %for.inc [
    i8 91, label %sw.open
    i8 93, label %sw.close
  ]

sw.open:                                          ; preds = %for.body
  %deep = icmp eq i32 %depth, 128
  br i1 %deep, label %cleanup, label %push

push:                                             ; preds = %sw.open
  %idxprom1 = zext i32 %depth to i64
  %arrayidx2 = getelementptr inbounds [128 x i32], ptr %open, i64 0, i64 %idxprom1
  store i32 %i, ptr %arrayidx2, align 4, !tbaa !10
  %depth.up = add nuw nsw i32 %depth, 1
  br label %for.inc

sw.close:                                         ; preds = %for.body
  %none = icmp eq i32 %depth, 0
  br i1 %none, label %cleanup, label %pop

pop:                                              ; preds = %sw.close
  %depth.down = add nsw i32 %depth, -1
  %idxprom3 = zext i32 %depth.down to i64
  %arrayidx4 = getelementptr inbounds [128 x i32], ptr %open, i64 0, i64 %idxprom3
  %from = load i32, ptr %arrayidx4, align 4, !tbaa !10
  %idxprom5 = zext i32 %from to i64
  %arrayidx6 = getelementptr inbounds [1024 x i32], ptr @jumps, i64 0, i64 %idxprom5
  store i32 %i, ptr %arrayidx6, align 4, !tbaa !10
  %arrayidx7 = getelementptr inbounds [1024 x i32], ptr @jumps, i64 0, i64 %idxprom
  store i32 %from, ptr %arrayidx7, align 4, !tbaa !10
  br label %for.inc

for.inc:                                          ; preds = %pop, %push, %for.body
  %depth.next = phi i32 [ %depth, %for.body ], [ %depth.up, %push ], [ %depth.down, %pop ]
  %inc = add nuw i32 %i, 1
  br label %for.cond, !llvm.loop !12

for.end:                                          ; preds = %for.cond
  %balanced = icmp eq i32 %depth, 0
  br label %cleanup

cleanup:                                          ; preds = %for.end, %sw.close, %sw.open
  %result = phi i1 [ %balanced, %for.end ], [ false, %sw.open ], [ false, %sw.close ]
  call void @llvm.lifetime.end.p0(i64 512, ptr nonnull %open) #5
  ret i1 %result
}

; Runs the program. The tape is a circle; at the end of the input a cell that is read into becomes 0.
; Function Attrs: nofree nounwind uwtable
define internal fastcc void @execute(i32 noundef %length) unnamed_addr #0 {
entry:
  br label %for.cond

for.cond:                                         ; preds = %for.inc, %entry
  %pc = phi i32 [ 0, %entry ], [ %inc, %for.inc ]
  %cell = phi i8 [ 0, %entry ], [ %cell.next, %for.inc ]
  %cmp = icmp slt i32 %pc, %length
  br i1 %cmp, label %for.body, label %for.end

for.body:                                         ; preds = %for.cond
  %idxprom = sext i32 %pc to i64
  %arrayidx = getelementptr inbounds [1024 x i8], ptr @code, i64 0, i64 %idxprom
  %command = load i8, ptr %arrayidx, align 1, !tbaa !5
  %idxprom1 = zext i8 %cell to i64
  %place = getelementptr inbounds [256 x i8], ptr @cells, i64 0, i64 %idxprom1
  switch i8 %command, label %for.inc [
    i8 62, label %sw.right
    i8 60, label %sw.left
    i8 43, label %sw.more
    i8 45, label %sw.less
    i8 46, label %sw.write
    i8 44, label %sw.read
    i8 91, label %sw.open
    i8 93, label %sw.close
  ]

sw.right:                                         ; preds = %for.body
  %right = add i8 %cell, 1
  br label %for.inc

sw.left:                                          ; preds = %for.body
  %left = add i8 %cell, -1
  br label %for.inc

sw.more:                                          ; preds = %for.body
  %0 = load i8, ptr %place, align 1, !tbaa !5
  %more = add i8 %0, 1
  store i8 %more, ptr %place, align 1, !tbaa !5
  br label %for.inc

sw.less:                                          ; preds = %for.body
  %1 = load i8, ptr %place, align 1, !tbaa !5
  %less = add i8 %1, -1
  store i8 %less, ptr %place, align 1, !tbaa !5
  br label %for.inc

sw.write:                                         ; preds = %for.body
  %2 = load i8, ptr %place, align 1, !tbaa !5
  %conv = zext i8 %2 to i32
  %call = tail call i32 @putchar(i32 noundef %conv) #4
  br label %for.inc

sw.read:                                          ; preds = %for.body
  %call2 = tail call i32 @getchar() #4
  %end = icmp eq i32 %call2, -1
  %conv3 = trunc i32 %call2 to i8
  %read = select i1 %end, i8 0, i8 %conv3
  store i8 %read, ptr %place, align 1, !tbaa !5
  br label %for.inc

sw.open:                                          ; preds = %for.body
  %3 = load i8, ptr %place, align 1, !tbaa !5
  %skip = icmp eq i8 %3, 0
  br i1 %skip, label %jump, label %for.inc

sw.close:                                         ; preds = %for.body
  %4 = load i8, ptr %place, align 1, !tbaa !5
  %done = icmp eq i8 %4, 0
  br i1 %done, label %for.inc, label %jump

jump:                                             ; preds = %sw.close, %sw.open
  %arrayidx4 = getelementptr inbounds [1024 x i32], ptr @jumps, i64 0, i64 %idxprom
  %5 = load i32, ptr %arrayidx4, align 4, !tbaa !10
  br label %for.inc

for.inc:                                          ; preds = %jump, %sw.close, %sw.open, %sw.read, %sw.write, %sw.less, %sw.more, %sw.left, %sw.right, %for.body
  %pc.next = phi i32 [ %pc, %for.body ], [ %pc, %sw.right ], [ %pc, %sw.left ], [ %pc, %sw.more ], [ %pc, %sw.less ], [ %pc, %sw.write ], [ %pc, %sw.read ], [ %pc, %sw.open ], [ %pc, %sw.close ], [ %5, %jump ]
  %cell.next = phi i8 [ %cell, %for.body ], [ %right, %sw.right ], [ %left, %sw.left ], [ %cell, %sw.more ], [ %cell, %sw.less ], [ %cell, %sw.write ], [ %cell, %sw.read ], [ %cell, %sw.open ], [ %cell, %sw.close ], [ %cell, %jump ]
  %inc = add nsw i32 %pc.next, 1
  br label %for.cond, !llvm.loop !13

for.end:                                          ; preds = %for.cond
  ret void
}

; Function Attrs: nofree nounwind uwtable
define dso_local i32 @main() local_unnamed_addr #0 {
entry:
  %length = tail call fastcc i32 @load_code()
  %matched = tail call fastcc zeroext i1 @match(i32 noundef %length)
  br i1 %matched, label %if.then, label %if.else

if.then:                                          ; preds = %entry
  tail call fastcc void @execute(i32 noundef %length)
  br label %if.end

if.else:                                          ; preds = %entry
  %call = tail call i32 @putchar(i32 noundef 63) #4
  br label %if.end

if.end:                                           ; preds = %if.else, %if.then
  ret i32 0
}

; Function Attrs: nofree nounwind
declare noundef i32 @getchar() local_unnamed_addr #2

; Function Attrs: nofree nounwind
declare noundef i32 @putchar(i32 noundef) local_unnamed_addr #2

; Function Attrs: mustprogress nocallback nofree nosync nounwind willreturn memory(argmem: readwrite)
declare void @llvm.lifetime.start.p0(i64 immarg, ptr nocapture) #3

; Function Attrs: mustprogress nocallback nofree nosync nounwind willreturn memory(argmem: readwrite)
declare void @llvm.lifetime.end.p0(i64 immarg, ptr nocapture) #3

attributes #0 = { nofree nounwind uwtable "min-legal-vector-width"="0" "no-trapping-math"="true" "stack-protector-buffer-size"="8" "target-cpu"="x86-64" "target-features"="+cx8,+fxsr,+mmx,+sse,+sse2,+x87" "tune-cpu"="generic" }
attributes #1 = { nofree norecurse nosync nounwind memory(readwrite, inaccessiblemem: none) uwtable "min-legal-vector-width"="0" "no-trapping-math"="true" "stack-protector-buffer-size"="8" "target-cpu"="x86-64" "target-features"="+cx8,+fxsr,+mmx,+sse,+sse2,+x87" "tune-cpu"="generic" }
attributes #2 = { nofree nounwind "no-trapping-math"="true" "stack-protector-buffer-size"="8" "target-cpu"="x86-64" "target-features"="+cx8,+fxsr,+mmx,+sse,+sse2,+x87" "tune-cpu"="generic" }
attributes #3 = { mustprogress nocallback nofree nosync nounwind willreturn memory(argmem: readwrite) }
attributes #4 = { nounwind }
attributes #5 = { nounwind }

!llvm.module.flags = !{!0, !1, !2, !3}
!llvm.ident = !{!4}

!0 = !{i32 1, !"wchar_size", i32 4}
!1 = !{i32 8, !"PIC Level", i32 2}
!2 = !{i32 7, !"PIE Level", i32 2}
!3 = !{i32 7, !"uwtable", i32 2}
!4 = !{!"clang version 16.0.6"}
!5 = !{!6, !6, i64 0}
!6 = !{!"omnipotent char", !7, i64 0}
!7 = !{!"Simple C/C++ TBAA"}
!8 = distinct !{!8, !9}
!9 = !{!"llvm.loop.mustprogress"}
!10 = !{!11, !11, i64 0}
!11 = !{!"int", !6, i64 0}
!12 = distinct !{!12, !9}
!13 = distinct !{!13, !9}
