; Methods of a class template and a table of functions in the place of a virtual table: a stack of numbers
; and shapes that say their own area.
; In the manner of clang++ 19 -O0 with names kept, without `inrange`. Returns 73.
; ModuleID = 'methods.cpp'
source_filename = "methods.cpp"
target datalayout = "e-m:e-p270:32:32-p271:32:32-p272:64:64-i64:64-i128:128-f80:128-n8:16:32:64-S128"
target triple = "x86_64-pc-linux-gnu"

%class.Stack = type { [4 x i32], i32 }
%struct.Shape = type { ptr, i32, i32 }
%struct.Table = type { [2 x ptr] }

$_ZN5StackIiLi4EEC2Ev = comdat any

$_ZN5StackIiLi4EE4pushEi = comdat any

$_ZN5StackIiLi4EE3popEv = comdat any

$_ZNK6Square4areaEv = comdat any

$_ZNK8Triangle4areaEv = comdat any

$_Z6tables = comdat any

@_Z6tables = linkonce_odr unnamed_addr constant [2 x %struct.Table] [%struct.Table { [2 x ptr] [ptr null, ptr @_ZNK6Square4areaEv] }, %struct.Table { [2 x ptr] [ptr null, ptr @_ZNK8Triangle4areaEv] }], comdat, align 16

; Function Attrs: mustprogress noinline norecurse optnone uwtable
define dso_local noundef i32 @main() #0 {
entry:
  %retval = alloca i32, align 4
  %stack = alloca %class.Stack, align 4
  %shapes = alloca [2 x %struct.Shape], align 16
  %i = alloca i32, align 4
  %sum = alloca i32, align 4
  store i32 0, ptr %retval, align 4
  call void @_ZN5StackIiLi4EEC2Ev(ptr noundef nonnull align 4 dereferenceable(20) %stack)
  %arrayidx = getelementptr inbounds [2 x %struct.Shape], ptr %shapes, i64 0, i64 0
  %table = getelementptr inbounds %struct.Shape, ptr %arrayidx, i32 0, i32 0
  store ptr getelementptr inbounds ([2 x %struct.Table], ptr @_Z6tables, i32 0, i32 0, i32 0, i32 1), ptr %table, align 16
  %width = getelementptr inbounds %struct.Shape, ptr %arrayidx, i32 0, i32 1
  store i32 7, ptr %width, align 8
  %height = getelementptr inbounds %struct.Shape, ptr %arrayidx, i32 0, i32 2
  store i32 0, ptr %height, align 4
  %arrayidx1 = getelementptr inbounds [2 x %struct.Shape], ptr %shapes, i64 0, i64 1
  %table2 = getelementptr inbounds %struct.Shape, ptr %arrayidx1, i32 0, i32 0
  store ptr getelementptr inbounds ([2 x %struct.Table], ptr @_Z6tables, i32 0, i32 1, i32 0, i32 1), ptr %table2, align 16
  %width3 = getelementptr inbounds %struct.Shape, ptr %arrayidx1, i32 0, i32 1
  store i32 6, ptr %width3, align 8
  %height4 = getelementptr inbounds %struct.Shape, ptr %arrayidx1, i32 0, i32 2
  store i32 8, ptr %height4, align 4
  store i32 0, ptr %i, align 4
  br label %for.cond

for.cond:                                         ; preds = %for.inc, %entry
  %0 = load i32, ptr %i, align 4
  %cmp = icmp slt i32 %0, 2
  br i1 %cmp, label %for.body, label %for.end

for.body:                                         ; preds = %for.cond
  %1 = load i32, ptr %i, align 4
  %idxprom = sext i32 %1 to i64
  %arrayidx5 = getelementptr inbounds [2 x %struct.Shape], ptr %shapes, i64 0, i64 %idxprom
  %vtable = load ptr, ptr %arrayidx5, align 16
  %vfn = getelementptr inbounds ptr, ptr %vtable, i64 0
  %2 = load ptr, ptr %vfn, align 8
  %call = call noundef i32 %2(ptr noundef nonnull align 8 dereferenceable(16) %arrayidx5)
  %call6 = call noundef zeroext i1 @_ZN5StackIiLi4EE4pushEi(ptr noundef nonnull align 4 dereferenceable(20) %stack, i32 noundef %call)
  br label %for.inc

for.inc:                                          ; preds = %for.body
  %3 = load i32, ptr %i, align 4
  %inc = add nsw i32 %3, 1
  store i32 %inc, ptr %i, align 4
  br label %for.cond, !llvm.loop !6

for.end:                                          ; preds = %for.cond
  %call7 = call noundef i32 @_ZN5StackIiLi4EE3popEv(ptr noundef nonnull align 4 dereferenceable(20) %stack)
  store i32 %call7, ptr %sum, align 4
  %call8 = call noundef i32 @_ZN5StackIiLi4EE3popEv(ptr noundef nonnull align 4 dereferenceable(20) %stack)
  %4 = load i32, ptr %sum, align 4
  %add = add nsw i32 %4, %call8
  store i32 %add, ptr %sum, align 4
  %call9 = call noundef i32 @_ZN5StackIiLi4EE3popEv(ptr noundef nonnull align 4 dereferenceable(20) %stack)
  %5 = load i32, ptr %sum, align 4
  %add10 = add nsw i32 %5, %call9
  store i32 %add10, ptr %sum, align 4
  %6 = load i32, ptr %sum, align 4
  ret i32 %6
}

; Function Attrs: mustprogress noinline nounwind optnone uwtable
define linkonce_odr dso_local void @_ZN5StackIiLi4EEC2Ev(ptr noundef nonnull align 4 dereferenceable(20) %this) unnamed_addr #1 comdat align 2 {
entry:
  %this.addr = alloca ptr, align 8
  store ptr %this, ptr %this.addr, align 8
  %this1 = load ptr, ptr %this.addr, align 8
  %count = getelementptr inbounds %class.Stack, ptr %this1, i32 0, i32 1
  store i32 0, ptr %count, align 4
  ret void
}

; Function Attrs: mustprogress noinline nounwind optnone uwtable
define linkonce_odr dso_local noundef zeroext i1 @_ZN5StackIiLi4EE4pushEi(ptr noundef nonnull align 4 dereferenceable(20) %this, i32 noundef %value) #1 comdat align 2 {
entry:
  %retval = alloca i8, align 1
  %this.addr = alloca ptr, align 8
  %value.addr = alloca i32, align 4
  store ptr %this, ptr %this.addr, align 8
  store i32 %value, ptr %value.addr, align 4
  %this1 = load ptr, ptr %this.addr, align 8
  %count = getelementptr inbounds %class.Stack, ptr %this1, i32 0, i32 1
  %0 = load i32, ptr %count, align 4
  %cmp = icmp eq i32 %0, 4
  br i1 %cmp, label %if.then, label %if.end

if.then:                                          ; preds = %entry
  store i8 0, ptr %retval, align 1
  br label %return

if.end:                                           ; preds = %entry
  %1 = load i32, ptr %value.addr, align 4
  %items = getelementptr inbounds %class.Stack, ptr %this1, i32 0, i32 0
  %count2 = getelementptr inbounds %class.Stack, ptr %this1, i32 0, i32 1
  %2 = load i32, ptr %count2, align 4
  %inc = add nsw i32 %2, 1
  store i32 %inc, ptr %count2, align 4
  %idxprom = sext i32 %2 to i64
  %arrayidx = getelementptr inbounds [4 x i32], ptr %items, i64 0, i64 %idxprom
  store i32 %1, ptr %arrayidx, align 4
  store i8 1, ptr %retval, align 1
  br label %return

return:                                           ; preds = %if.end, %if.then
  %3 = load i8, ptr %retval, align 1
  %4 = trunc i8 %3 to i1
  ret i1 %4
}

; Function Attrs: mustprogress noinline nounwind optnone uwtable
define linkonce_odr dso_local noundef i32 @_ZN5StackIiLi4EE3popEv(ptr noundef nonnull align 4 dereferenceable(20) %this) #1 comdat align 2 {
entry:
  %this.addr = alloca ptr, align 8
  store ptr %this, ptr %this.addr, align 8
  %this1 = load ptr, ptr %this.addr, align 8
  %count = getelementptr inbounds %class.Stack, ptr %this1, i32 0, i32 1
  %0 = load i32, ptr %count, align 4
  %cmp = icmp eq i32 %0, 0
  br i1 %cmp, label %cond.true, label %cond.false

cond.true:                                        ; preds = %entry
  br label %cond.end

cond.false:                                       ; preds = %entry
  %items = getelementptr inbounds %class.Stack, ptr %this1, i32 0, i32 0
  %count2 = getelementptr inbounds %class.Stack, ptr %this1, i32 0, i32 1
  %1 = load i32, ptr %count2, align 4
  %dec = add nsw i32 %1, -1
  store i32 %dec, ptr %count2, align 4
  %idxprom = sext i32 %dec to i64
  %arrayidx = getelementptr inbounds [4 x i32], ptr %items, i64 0, i64 %idxprom
  %2 = load i32, ptr %arrayidx, align 4
  br label %cond.end

cond.end:                                         ; preds = %cond.false, %cond.true
  %cond = phi i32 [ 0, %cond.true ], [ %2, %cond.false ]
  ret i32 %cond
}

; Function Attrs: mustprogress noinline nounwind optnone uwtable
define linkonce_odr dso_local noundef i32 @_ZNK6Square4areaEv(ptr noundef nonnull align 8 dereferenceable(16) %this) unnamed_addr #1 comdat align 2 {
entry:
  %this.addr = alloca ptr, align 8
  store ptr %this, ptr %this.addr, align 8
  %this1 = load ptr, ptr %this.addr, align 8
  %width = getelementptr inbounds %struct.Shape, ptr %this1, i32 0, i32 1
  %0 = load i32, ptr %width, align 8
  %width2 = getelementptr inbounds %struct.Shape, ptr %this1, i32 0, i32 1
  %1 = load i32, ptr %width2, align 8
  %mul = mul nsw i32 %0, %1
  ret i32 %mul
}

; Function Attrs: mustprogress noinline nounwind optnone uwtable
define linkonce_odr dso_local noundef i32 @_ZNK8Triangle4areaEv(ptr noundef nonnull align 8 dereferenceable(16) %this) unnamed_addr #1 comdat align 2 {
entry:
  %this.addr = alloca ptr, align 8
  store ptr %this, ptr %this.addr, align 8
  %this1 = load ptr, ptr %this.addr, align 8
  %width = getelementptr inbounds %struct.Shape, ptr %this1, i32 0, i32 1
  %0 = load i32, ptr %width, align 8
  %height = getelementptr inbounds %struct.Shape, ptr %this1, i32 0, i32 2
  %1 = load i32, ptr %height, align 4
  %mul = mul nsw i32 %0, %1
  %div = sdiv i32 %mul, 2
  ret i32 %div
}

attributes #0 = { mustprogress noinline norecurse optnone uwtable "frame-pointer"="all" "min-legal-vector-width"="0" "no-trapping-math"="true" "stack-protector-buffer-size"="8" "target-cpu"="x86-64" "target-features"="+cmov,+cx8,+fxsr,+mmx,+sse,+sse2,+x87" "tune-cpu"="generic" }
attributes #1 = { mustprogress noinline nounwind optnone uwtable "frame-pointer"="all" "min-legal-vector-width"="0" "no-trapping-math"="true" "stack-protector-buffer-size"="8" "target-cpu"="x86-64" "target-features"="+cmov,+cx8,+fxsr,+mmx,+sse,+sse2,+x87" "tune-cpu"="generic" }

!llvm.module.flags = !{!0, !1, !2, !3, !4}
!llvm.ident = !{!5}

!0 = !{i32 1, !"wchar_size", i32 4}
!1 = !{i32 8, !"PIC Level", i32 2}
!2 = !{i32 7, !"PIE Level", i32 2}
!3 = !{i32 7, !"uwtable", i32 2}
!4 = !{i32 7, !"frame-pointer", i32 2}
!5 = !{!"clang version 19.1.7"}
!6 = distinct !{!6, !7}
!7 = !{!"llvm.loop.mustprogress"}
