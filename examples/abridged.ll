; In clang's manner, abridged: each kind of line that a module has. Returns 7.
source_filename = "abridged.c"
target datalayout = "e-m:e-i64:64"
target triple = "x86_64-pc-linux-gnu"

%struct.pair = type { i32, [2 x i8] }

$name = comdat any

@name = linkonce_odr dso_local constant [3 x i8] c"ok\00", comdat, align 1
@pair = internal global %struct.pair { i32 7, [2 x i8] zeroinitializer }, align 4

; Function Attrs: nounwind uwtable
define dso_local noundef i32 @main() local_unnamed_addr #0 {
  %1 = alloca i32, align 4
  call void @llvm.lifetime.start.p0(i64 4, ptr nonnull %1) #2
  %2 = load i32, ptr @pair, align 4, !tbaa !1
  store i32 %2, ptr %1, align 4, !tbaa !1
  %3 = load i8, ptr getelementptr inbounds ([3 x i8], ptr @name, i64 0, i64 1), align 1
  %4 = zext i8 %3 to i32
  %5 = tail call i32 @putchar(i32 noundef %4)
  %6 = load i32, ptr %1, align 4, !tbaa !1
  call void @llvm.lifetime.end.p0(i64 4, ptr nonnull %1) #2
  ret i32 %6
}

declare void @llvm.lifetime.start.p0(i64 immarg, ptr captures(none)) #1
declare void @llvm.lifetime.end.p0(i64 immarg, ptr captures(none)) #1
declare noundef i32 @putchar(i32 noundef) local_unnamed_addr

attributes #0 = { nounwind uwtable "frame-pointer"="all" }
attributes #1 = { nocallback nofree memory(argmem: readwrite) }
attributes #2 = { nounwind }

!llvm.module.flags = !{!0}

!0 = !{i32 1, !"wchar_size", i32 4}
!1 = !{!2, !2, i64 0}
!2 = !{!"int", !3}
!3 = !{!"Simple C/C++ TBAA"}
