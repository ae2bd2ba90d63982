; Inline functions, members and instances of templates of C++, each in a comdat of its name: the greatest and
; least of two, and a counter whose number is a static member.
; In the manner of clang++ 16 -O1. Returns 66.
; ModuleID = 'inline_functions.cpp'
source_filename = "inline_functions.cpp"
target datalayout = "e-m:e-p270:32:32-p271:32:32-p272:64:64-i64:64-f80:128-n8:16:32:64-S128"
target triple = "x86_64-pc-linux-gnu"

%class.Counter = type { i32, i32 }

$_ZN7Counter4stepEi = comdat any

$_ZN7CounterC2Ei = comdat any

$_Z8greatestIiET_S0_S0_ = comdat any

$_Z5leastIlERKT_S2_S2_ = comdat any

$_ZN7Counter4madeE = comdat any

@_ZL5limit = internal constant i64 40, align 8
@_ZN7Counter4madeE = linkonce_odr dso_local local_unnamed_addr global i32 0, comdat, align 4

; Function Attrs: mustprogress noinline nounwind uwtable
define linkonce_odr dso_local void @_ZN7CounterC2Ei(ptr noundef nonnull align 4 dereferenceable(8) %0, i32 noundef %1) unnamed_addr #0 comdat align 2 {
  store i32 0, ptr %0, align 4, !tbaa !5
  %3 = getelementptr inbounds %class.Counter, ptr %0, i64 0, i32 1
  store i32 %1, ptr %3, align 4, !tbaa !10
  %4 = load i32, ptr @_ZN7Counter4madeE, align 4, !tbaa !11
  %5 = add nsw i32 %4, 1
  store i32 %5, ptr @_ZN7Counter4madeE, align 4, !tbaa !11
  ret void
}

; Function Attrs: mustprogress noinline nounwind uwtable
define linkonce_odr dso_local noundef nonnull align 4 dereferenceable(8) ptr @_ZN7Counter4stepEi(ptr noundef nonnull returned align 4 dereferenceable(8) %0, i32 noundef %1) local_unnamed_addr #0 comdat align 2 {
  %3 = load i32, ptr %0, align 4, !tbaa !5
  %4 = add nsw i32 %3, %1
  %5 = getelementptr inbounds %class.Counter, ptr %0, i64 0, i32 1
  %6 = load i32, ptr %5, align 4, !tbaa !10
  %7 = tail call noundef i32 @_Z8greatestIiET_S0_S0_(i32 noundef %4, i32 noundef %6) #5
  store i32 %7, ptr %0, align 4, !tbaa !5
  ret ptr %0
}

; Function Attrs: mustprogress noinline nounwind willreturn memory(none) uwtable
define linkonce_odr dso_local noundef i32 @_Z8greatestIiET_S0_S0_(i32 noundef %0, i32 noundef %1) local_unnamed_addr #1 comdat {
  %3 = icmp sgt i32 %0, %1
  %4 = select i1 %3, i32 %0, i32 %1
  ret i32 %4
}

; Function Attrs: mustprogress nounwind willreturn memory(argmem: read) uwtable
define linkonce_odr dso_local noundef nonnull align 8 dereferenceable(8) ptr @_Z5leastIlERKT_S2_S2_(ptr noundef nonnull align 8 dereferenceable(8) %0, ptr noundef nonnull align 8 dereferenceable(8) %1) local_unnamed_addr #2 comdat {
  %3 = load i64, ptr %1, align 8, !tbaa !12
  %4 = load i64, ptr %0, align 8, !tbaa !12
  %5 = icmp slt i64 %3, %4
  %6 = select i1 %5, ptr %1, ptr %0
  ret ptr %6
}

; Function Attrs: mustprogress norecurse nounwind uwtable
define dso_local noundef i32 @main() local_unnamed_addr #3 {
  %1 = alloca %class.Counter, align 4
  %2 = alloca i64, align 8
  call void @llvm.lifetime.start.p0(i64 8, ptr nonnull %1) #5
  call void @_ZN7CounterC2Ei(ptr noundef nonnull align 4 dereferenceable(8) %1, i32 noundef 3)
  %3 = call noundef nonnull align 4 dereferenceable(8) ptr @_ZN7Counter4stepEi(ptr noundef nonnull align 4 dereferenceable(8) %1, i32 noundef -20)
  %4 = call noundef nonnull align 4 dereferenceable(8) ptr @_ZN7Counter4stepEi(ptr noundef nonnull align 4 dereferenceable(8) %3, i32 noundef 22)
  call void @llvm.lifetime.start.p0(i64 8, ptr nonnull %2) #5
  store i64 42, ptr %2, align 8, !tbaa !12
  %5 = call noundef nonnull align 8 dereferenceable(8) ptr @_Z5leastIlERKT_S2_S2_(ptr noundef nonnull align 8 dereferenceable(8) %2, ptr noundef nonnull align 8 dereferenceable(8) @_ZL5limit)
  %6 = load i64, ptr %5, align 8, !tbaa !12
  %7 = trunc i64 %6 to i32
  %8 = load i32, ptr %1, align 4, !tbaa !5
  %9 = add nsw i32 %8, %7
  %10 = load i32, ptr @_ZN7Counter4madeE, align 4, !tbaa !11
  %11 = add nsw i32 %9, %10
  call void @llvm.lifetime.end.p0(i64 8, ptr nonnull %2) #5
  call void @llvm.lifetime.end.p0(i64 8, ptr nonnull %1) #5
  ret i32 %11
}

; Function Attrs: mustprogress nocallback nofree nosync nounwind willreturn memory(argmem: readwrite)
declare void @llvm.lifetime.start.p0(i64 immarg, ptr nocapture) #4

; Function Attrs: mustprogress nocallback nofree nosync nounwind willreturn memory(argmem: readwrite)
declare void @llvm.lifetime.end.p0(i64 immarg, ptr nocapture) #4

attributes #0 = { mustprogress noinline nounwind uwtable "min-legal-vector-width"="0" "no-trapping-math"="true" "stack-protector-buffer-size"="8" "target-cpu"="x86-64" "target-features"="+cx8,+fxsr,+mmx,+sse,+sse2,+x87" "tune-cpu"="generic" }
attributes #1 = { mustprogress noinline nounwind willreturn memory(none) uwtable "min-legal-vector-width"="0" "no-trapping-math"="true" "stack-protector-buffer-size"="8" "target-cpu"="x86-64" "target-features"="+cx8,+fxsr,+mmx,+sse,+sse2,+x87" "tune-cpu"="generic" }
attributes #2 = { mustprogress nounwind willreturn memory(argmem: read) uwtable "min-legal-vector-width"="0" "no-trapping-math"="true" "stack-protector-buffer-size"="8" "target-cpu"="x86-64" "target-features"="+cx8,+fxsr,+mmx,+sse,+sse2,+x87" "tune-cpu"="generic" }
attributes #3 = { mustprogress norecurse nounwind uwtable "min-legal-vector-width"="0" "no-trapping-math"="true" "stack-protector-buffer-size"="8" "target-cpu"="x86-64" "target-features"="+cx8,+fxsr,+mmx,+sse,+sse2,+x87" "tune-cpu"="generic" }
attributes #4 = { mustprogress nocallback nofree nosync nounwind willreturn memory(argmem: readwrite) }
attributes #5 = { nounwind }

!llvm.module.flags = !{!0, !1, !2, !3}
!llvm.ident = !{!4}

!0 = !{i32 1, !"wchar_size", i32 4}
!1 = !{i32 8, !"PIC Level", i32 2}
!2 = !{i32 7, !"PIE Level", i32 2}
!3 = !{i32 7, !"uwtable", i32 2}
!4 = !{!"clang version 16.0.6"}
!5 = !{!6, !7, i64 0}
!6 = !{!"_ZTS7Counter", !7, i64 0, !7, i64 4}
!7 = !{!"int", !8, i64 0}
!8 = !{!"omnipotent char", !9, i64 0}
!9 = !{!"Simple C++ TBAA"}
!10 = !{!6, !7, i64 4}
!11 = !{!7, !7, i64 0}
!12 = !{!13, !13, i64 0}
!13 = !{!"long", !8, i64 0}
