; Sorts the words of its input in three orders, each a comparison that the sort is given as a pointer to a
; function, and writes them once in each: by their letters, by their lengths, and by their letters from
; behind. A merge sort, so words that compare alike keep their order.
; In the manner of clang 19 with -O1 and names kept. Returns the number of words, here 12.
source_filename = "words_sorted.c"
target datalayout = "e-m:e-p270:32:32-p271:32:32-p272:64:64-i64:64-i128:128-f80:128-n8:16:32:64-S128"
target triple = "x86_64-pc-linux-gnu"

%struct.word = type { ptr, i32 }
%struct.order = type { ptr, ptr }

@.str = private unnamed_addr constant [8 x i8] c"letters\00", align 1
@.str.1 = private unnamed_addr constant [8 x i8] c"lengths\00", align 1
@.str.2 = private unnamed_addr constant [12 x i8] c"from behind\00", align 1
@orders = internal unnamed_addr constant [3 x %struct.order] [%struct.order { ptr @.str, ptr @by_letters }, %struct.order { ptr @.str.1, ptr @by_length }, %struct.order { ptr @.str.2, ptr @from_behind }], align 16
@pool = internal global [512 x i8] zeroinitializer, align 16
@used = internal unnamed_addr global i64 0, align 8
@words = internal global [64 x %struct.word] zeroinitializer, align 16
@merged = internal global [64 x %struct.word] zeroinitializer, align 16

; Function Attrs: mustprogress nofree norecurse nosync nounwind willreturn memory(argmem: read) uwtable
define internal range(i32 -1, 2) i32 @by_length(ptr nocapture noundef readonly %a, ptr nocapture noundef readonly %b) #0 {
entry:
  %length = getelementptr inbounds i8, ptr %a, i64 8
  %0 = load i32, ptr %length, align 8, !tbaa !5
  %length1 = getelementptr inbounds i8, ptr %b, i64 8
  %1 = load i32, ptr %length1, align 8, !tbaa !5
  %cmp = icmp slt i32 %0, %1
  %cmp2 = icmp sgt i32 %0, %1
  %conv = zext i1 %cmp2 to i32
  %cond = select i1 %cmp, i32 -1, i32 %conv
  ret i32 %cond
}

; Function Attrs: nofree norecurse nosync nounwind memory(read, inaccessiblemem: none) uwtable
define internal range(i32 -255, 256) i32 @by_letters(ptr nocapture noundef readonly %a, ptr nocapture noundef readonly %b) #1 {
entry:
  %0 = load ptr, ptr %a, align 8, !tbaa !11
  %1 = load ptr, ptr %b, align 8, !tbaa !11
  br label %for.cond

for.cond:                                         ; preds = %for.inc, %entry
  %p.0 = phi ptr [ %0, %entry ], [ %incdec.ptr, %for.inc ]
  %q.0 = phi ptr [ %1, %entry ], [ %incdec.ptr4, %for.inc ]
  %2 = load i8, ptr %p.0, align 1, !tbaa !12
  %3 = load i8, ptr %q.0, align 1, !tbaa !12
  %cmp = icmp ne i8 %2, %3
  %tobool = icmp eq i8 %2, 0
  %or.cond = select i1 %cmp, i1 true, i1 %tobool
  br i1 %or.cond, label %for.end, label %for.inc

for.inc:                                          ; preds = %for.cond
  %incdec.ptr = getelementptr inbounds i8, ptr %p.0, i64 1
  %incdec.ptr4 = getelementptr inbounds i8, ptr %q.0, i64 1
  br label %for.cond, !llvm.loop !13

for.end:                                          ; preds = %for.cond
  %conv = zext i8 %2 to i32
  %conv2 = zext i8 %3 to i32
  %sub = sub nsw i32 %conv, %conv2
  ret i32 %sub
}

; Function Attrs: nofree norecurse nosync nounwind memory(read, inaccessiblemem: none) uwtable
define internal range(i32 -255, 256) i32 @from_behind(ptr nocapture noundef readonly %a, ptr nocapture noundef readonly %b) #1 {
entry:
  %length = getelementptr inbounds i8, ptr %a, i64 8
  %0 = load i32, ptr %length, align 8, !tbaa !5
  %length1 = getelementptr inbounds i8, ptr %b, i64 8
  %1 = load i32, ptr %length1, align 8, !tbaa !5
  %2 = load ptr, ptr %a, align 8, !tbaa !11
  %3 = load ptr, ptr %b, align 8, !tbaa !11
  br label %for.cond

for.cond:                                         ; preds = %if.end, %entry
  %i.0 = phi i32 [ %0, %entry ], [ %dec, %if.end ]
  %j.0 = phi i32 [ %1, %entry ], [ %dec2, %if.end ]
  %cmp = icmp eq i32 %i.0, 0
  %cmp3 = icmp eq i32 %j.0, 0
  %or.cond = or i1 %cmp, %cmp3
  br i1 %or.cond, label %ends, label %for.body

for.body:                                         ; preds = %for.cond
  %dec = add nsw i32 %i.0, -1
  %idxprom = zext nneg i32 %dec to i64
  %arrayidx = getelementptr inbounds i8, ptr %2, i64 %idxprom
  %4 = load i8, ptr %arrayidx, align 1, !tbaa !12
  %dec2 = add nsw i32 %j.0, -1
  %idxprom4 = zext nneg i32 %dec2 to i64
  %arrayidx5 = getelementptr inbounds i8, ptr %3, i64 %idxprom4
  %5 = load i8, ptr %arrayidx5, align 1, !tbaa !12
  %cmp6.not = icmp eq i8 %4, %5
  br i1 %cmp6.not, label %if.end, label %differ

if.end:                                           ; preds = %for.body
  br label %for.cond, !llvm.loop !15

differ:                                           ; preds = %for.body
  %conv = zext i8 %4 to i32
  %conv7 = zext i8 %5 to i32
  %sub = sub nsw i32 %conv, %conv7
  br label %cleanup

ends:                                             ; preds = %for.cond
  %conv8 = zext i1 %cmp3 to i32
  %conv9 = zext i1 %cmp to i32
  %sub10 = sub nsw i32 %conv8, %conv9
  br label %cleanup

cleanup:                                          ; preds = %ends, %differ
  %retval.0 = phi i32 [ %sub, %differ ], [ %sub10, %ends ]
  ret i32 %retval.0
}

; Reads words of letters into the pool; gives how many there are.
; Function Attrs: nofree nounwind uwtable
define internal fastcc i32 @read_words() unnamed_addr #2 {
entry:
  br label %while.cond

while.cond:                                       ; preds = %if.end20, %entry
  %count.0 = phi i32 [ 0, %entry ], [ %count.1, %if.end20 ]
  %length.0 = phi i32 [ 0, %entry ], [ %length.1, %if.end20 ]
  %call = tail call i32 @getchar() #5
  %or = or i32 %call, 32
  %sub = add i32 %or, -97
  %cmp = icmp ult i32 %sub, 26
  br i1 %cmp, label %if.then, label %if.else

if.then:                                          ; preds = %while.cond
  %conv = trunc i32 %call to i8
  %0 = load i64, ptr @used, align 8, !tbaa !16
  %arrayidx = getelementptr inbounds [512 x i8], ptr @pool, i64 0, i64 %0
  store i8 %conv, ptr %arrayidx, align 1, !tbaa !12
  %inc = add i64 %0, 1
  store i64 %inc, ptr @used, align 8, !tbaa !16
  %inc1 = add nuw nsw i32 %length.0, 1
  br label %if.end20

if.else:                                          ; preds = %while.cond
  %tobool.not = icmp eq i32 %length.0, 0
  br i1 %tobool.not, label %if.end20, label %if.then2

if.then2:                                         ; preds = %if.else
  %1 = load i64, ptr @used, align 8, !tbaa !16
  %idx.ext = zext nneg i32 %length.0 to i64
  %sub3 = sub i64 %1, %idx.ext
  %add.ptr = getelementptr inbounds i8, ptr @pool, i64 %sub3
  %idxprom = zext nneg i32 %count.0 to i64
  %arrayidx5 = getelementptr inbounds [64 x %struct.word], ptr @words, i64 0, i64 %idxprom
  store ptr %add.ptr, ptr %arrayidx5, align 16, !tbaa !11
  %length8 = getelementptr inbounds i8, ptr %arrayidx5, i64 8
  store i32 %length.0, ptr %length8, align 8, !tbaa !5
  %inc9 = add i64 %1, 1
  store i64 %inc9, ptr @used, align 8, !tbaa !16
  %inc10 = add nuw nsw i32 %count.0, 1
  br label %if.end20

if.end20:                                         ; preds = %if.then2, %if.else, %if.then
  %count.1 = phi i32 [ %count.0, %if.then ], [ %inc10, %if.then2 ], [ %count.0, %if.else ]
  %length.1 = phi i32 [ %inc1, %if.then ], [ 0, %if.then2 ], [ 0, %if.else ]
  %cmp21 = icmp eq i32 %call, -1
  %cmp23 = icmp eq i32 %count.1, 64
  %or.cond = select i1 %cmp21, i1 true, i1 %cmp23
  br i1 %or.cond, label %while.end, label %while.cond, !llvm.loop !18

while.end:                                        ; preds = %if.end20
  ret i32 %count.1
}

; Sorts the words from one place to before another.
; Function Attrs: nounwind uwtable
define internal fastcc void @sort(i32 noundef %from, i32 noundef %to, ptr nocapture noundef readonly %compare) unnamed_addr #3 {
entry:
  %sub = sub nsw i32 %to, %from
  %cmp = icmp slt i32 %sub, 2
  br i1 %cmp, label %return, label %if.end

if.end:                                           ; preds = %entry
  %div = lshr i32 %sub, 1
  %add = add nsw i32 %div, %from
  tail call fastcc void @sort(i32 noundef %from, i32 noundef %add, ptr noundef %compare)
  tail call fastcc void @sort(i32 noundef %add, i32 noundef %to, ptr noundef %compare)
  br label %for.cond

for.cond:                                         ; preds = %take, %if.end
  %k.0 = phi i32 [ %from, %if.end ], [ %inc, %take ]
  %left.0 = phi i32 [ %from, %if.end ], [ %left.1, %take ]
  %right.0 = phi i32 [ %add, %if.end ], [ %right.1, %take ]
  %cmp1 = icmp slt i32 %k.0, %to
  br i1 %cmp1, label %for.body, label %copy

for.body:                                         ; preds = %for.cond
  %idxprom = sext i32 %left.0 to i64
  %arrayidx = getelementptr inbounds [64 x %struct.word], ptr @words, i64 0, i64 %idxprom
  %idxprom2 = sext i32 %right.0 to i64
  %arrayidx3 = getelementptr inbounds [64 x %struct.word], ptr @words, i64 0, i64 %idxprom2
  %cmp4 = icmp eq i32 %left.0, %add
  br i1 %cmp4, label %take.right, label %lor.lhs

lor.lhs:                                          ; preds = %for.body
  %cmp5 = icmp eq i32 %right.0, %to
  br i1 %cmp5, label %take.left, label %lor.rhs

lor.rhs:                                          ; preds = %lor.lhs
  %call = tail call i32 %compare(ptr noundef nonnull %arrayidx, ptr noundef nonnull %arrayidx3) #5
  %cmp6 = icmp slt i32 %call, 1
  br i1 %cmp6, label %take.left, label %take.right

take.left:                                        ; preds = %lor.rhs, %lor.lhs
  %inc7 = add nsw i32 %left.0, 1
  br label %take

take.right:                                       ; preds = %lor.rhs, %for.body
  %inc8 = add nsw i32 %right.0, 1
  br label %take

take:                                             ; preds = %take.right, %take.left
  %left.1 = phi i32 [ %inc7, %take.left ], [ %left.0, %take.right ]
  %right.1 = phi i32 [ %right.0, %take.left ], [ %inc8, %take.right ]
  %chosen = phi ptr [ %arrayidx, %take.left ], [ %arrayidx3, %take.right ]
  %idxprom9 = sext i32 %k.0 to i64
  %arrayidx10 = getelementptr inbounds [64 x %struct.word], ptr @merged, i64 0, i64 %idxprom9
  tail call fastcc void @move_word(ptr noundef nonnull %arrayidx10, ptr noundef nonnull %chosen)
  %inc = add nsw i32 %k.0, 1
  br label %for.cond, !llvm.loop !19

copy:                                             ; preds = %copy.body, %for.cond
  %c.0 = phi i32 [ %inc14, %copy.body ], [ %from, %for.cond ]
  %cmp11 = icmp slt i32 %c.0, %to
  br i1 %cmp11, label %copy.body, label %return

copy.body:                                        ; preds = %copy
  %idxprom12 = sext i32 %c.0 to i64
  %arrayidx12 = getelementptr inbounds [64 x %struct.word], ptr @words, i64 0, i64 %idxprom12
  %arrayidx13 = getelementptr inbounds [64 x %struct.word], ptr @merged, i64 0, i64 %idxprom12
  tail call fastcc void @move_word(ptr noundef nonnull %arrayidx12, ptr noundef nonnull %arrayidx13)
  %inc14 = add nsw i32 %c.0, 1
  br label %copy, !llvm.loop !20

return:                                           ; preds = %copy, %entry
  ret void
}

; Function Attrs: mustprogress nofree norecurse nosync nounwind willreturn memory(argmem: readwrite) uwtable
define internal fastcc void @move_word(ptr nocapture noundef writeonly %to, ptr nocapture noundef readonly %from) unnamed_addr #4 {
entry:
  %0 = load ptr, ptr %from, align 8, !tbaa !11
  store ptr %0, ptr %to, align 8, !tbaa !11
  %length = getelementptr inbounds i8, ptr %from, i64 8
  %1 = load i32, ptr %length, align 8, !tbaa !5
  %length2 = getelementptr inbounds i8, ptr %to, i64 8
  store i32 %1, ptr %length2, align 8, !tbaa !5
  ret void
}

; Function Attrs: nofree nounwind uwtable
define internal fastcc void @write(ptr nocapture noundef readonly %text, i32 noundef %last) unnamed_addr #2 {
entry:
  br label %while.cond

while.cond:                                       ; preds = %while.body, %entry
  %text.addr.0 = phi ptr [ %text, %entry ], [ %incdec.ptr, %while.body ]
  %0 = load i8, ptr %text.addr.0, align 1, !tbaa !12
  %tobool.not = icmp eq i8 %0, 0
  br i1 %tobool.not, label %while.end, label %while.body

while.body:                                       ; preds = %while.cond
  %incdec.ptr = getelementptr inbounds i8, ptr %text.addr.0, i64 1
  %conv = sext i8 %0 to i32
  %call = tail call i32 @putchar(i32 noundef %conv) #5
  br label %while.cond, !llvm.loop !21

while.end:                                        ; preds = %while.cond
  %call1 = tail call i32 @putchar(i32 noundef %last) #5
  ret void
}

; Function Attrs: nounwind uwtable
define dso_local i32 @main() local_unnamed_addr #3 {
entry:
  %call = tail call fastcc i32 @read_words()
  br label %for.body

for.body:                                         ; preds = %for.inc15, %entry
  %k.0 = phi i64 [ 0, %entry ], [ %inc16, %for.inc15 ]
  %arrayidx = getelementptr inbounds [3 x %struct.order], ptr @orders, i64 0, i64 %k.0
  %0 = load ptr, ptr %arrayidx, align 16, !tbaa !22
  tail call fastcc void @write(ptr noundef %0, i32 noundef 58)
  %compare = getelementptr inbounds i8, ptr %arrayidx, i64 8
  %1 = load ptr, ptr %compare, align 8, !tbaa !24
  tail call fastcc void @sort(i32 noundef 0, i32 noundef %call, ptr noundef %1)
  br label %for.cond5

for.cond5:                                        ; preds = %for.body8, %for.body
  %i.0 = phi i32 [ 0, %for.body ], [ %inc, %for.body8 ]
  %cmp6 = icmp slt i32 %i.0, %call
  br i1 %cmp6, label %for.body8, label %for.inc15

for.body8:                                        ; preds = %for.cond5
  %idxprom9 = zext nneg i32 %i.0 to i64
  %arrayidx10 = getelementptr inbounds [64 x %struct.word], ptr @words, i64 0, i64 %idxprom9
  %call11 = tail call i32 @putchar(i32 noundef 32) #5
  %2 = load ptr, ptr %arrayidx10, align 16, !tbaa !11
  %inc = add nuw nsw i32 %i.0, 1
  %cmp12 = icmp eq i32 %inc, %call
  %cond = select i1 %cmp12, i32 46, i32 44
  tail call fastcc void @write(ptr noundef %2, i32 noundef %cond)
  br label %for.cond5, !llvm.loop !25

for.inc15:                                        ; preds = %for.cond5
  %call13 = tail call i32 @putchar(i32 noundef 10) #5
  %inc16 = add nuw nsw i64 %k.0, 1
  %exitcond.not = icmp eq i64 %inc16, 3
  br i1 %exitcond.not, label %for.end17, label %for.body, !llvm.loop !26

for.end17:                                        ; preds = %for.inc15
  ret i32 %call
}

; Function Attrs: nofree nounwind
declare noundef i32 @getchar() local_unnamed_addr #6

; Function Attrs: nofree nounwind
declare noundef i32 @putchar(i32 noundef) local_unnamed_addr #6

attributes #0 = { mustprogress nofree norecurse nosync nounwind willreturn memory(argmem: read) uwtable "min-legal-vector-width"="0" "no-trapping-math"="true" "stack-protector-buffer-size"="8" "target-cpu"="x86-64" "target-features"="+cmov,+cx8,+fxsr,+mmx,+sse,+sse2,+x87" "tune-cpu"="generic" }
attributes #1 = { nofree norecurse nosync nounwind memory(read, inaccessiblemem: none) uwtable "min-legal-vector-width"="0" "no-trapping-math"="true" "stack-protector-buffer-size"="8" "target-cpu"="x86-64" "target-features"="+cmov,+cx8,+fxsr,+mmx,+sse,+sse2,+x87" "tune-cpu"="generic" }
attributes #2 = { nofree nounwind uwtable "min-legal-vector-width"="0" "no-trapping-math"="true" "stack-protector-buffer-size"="8" "target-cpu"="x86-64" "target-features"="+cmov,+cx8,+fxsr,+mmx,+sse,+sse2,+x87" "tune-cpu"="generic" }
attributes #3 = { nounwind uwtable "min-legal-vector-width"="0" "no-trapping-math"="true" "stack-protector-buffer-size"="8" "target-cpu"="x86-64" "target-features"="+cmov,+cx8,+fxsr,+mmx,+sse,+sse2,+x87" "tune-cpu"="generic" }
attributes #4 = { mustprogress nofree norecurse nosync nounwind willreturn memory(argmem: readwrite) uwtable "min-legal-vector-width"="0" "no-trapping-math"="true" "stack-protector-buffer-size"="8" "target-cpu"="x86-64" "target-features"="+cmov,+cx8,+fxsr,+mmx,+sse,+sse2,+x87" "tune-cpu"="generic" }
attributes #5 = { nounwind }
attributes #6 = { nofree nounwind "no-trapping-math"="true" "stack-protector-buffer-size"="8" "target-cpu"="x86-64" "target-features"="+cmov,+cx8,+fxsr,+mmx,+sse,+sse2,+x87" "tune-cpu"="generic" }

!llvm.module.flags = !{!0, !1, !2, !3}
!llvm.ident = !{!4}

!0 = !{i32 1, !"wchar_size", i32 4}
!1 = !{i32 8, !"PIC Level", i32 2}
!2 = !{i32 7, !"PIE Level", i32 2}
!3 = !{i32 7, !"uwtable", i32 2}
!4 = !{!"clang version 19.1.7"}
!5 = !{!6, !10, i64 8}
!6 = !{!"word", !7, i64 0, !10, i64 8}
!7 = !{!"any pointer", !8, i64 0}
!8 = !{!"omnipotent char", !9, i64 0}
!9 = !{!"Simple C/C++ TBAA"}
!10 = !{!"int", !8, i64 0}
!11 = !{!6, !7, i64 0}
!12 = !{!8, !8, i64 0}
!13 = distinct !{!13, !14}
!14 = !{!"llvm.loop.mustprogress"}
!15 = distinct !{!15, !14}
!16 = !{!17, !17, i64 0}
!17 = !{!"long", !8, i64 0}
!18 = distinct !{!18, !14}
!19 = distinct !{!19, !14}
!20 = distinct !{!20, !14}
!21 = distinct !{!21, !14}
!22 = !{!23, !7, i64 0}
!23 = !{!"order", !7, i64 0, !7, i64 8}
!24 = !{!23, !7, i64 8}
!25 = distinct !{!25, !14}
!26 = distinct !{!26, !14}
