; ModuleID = 'padded_field.c'
source_filename = "padded_field.c"
target datalayout = "e-m:e-p270:32:32-p271:32:32-p272:64:64-i64:64-f80:128-n8:16:32:64-S128"
target triple = "x86_64-pc-linux-gnu"

%struct.flags = type { i32 }

@flags = dso_local global %struct.flags zeroinitializer, align 4

; Function Attrs: noinline nounwind optnone uwtable
define dso_local i32 @is_ready() #0 {
  %1 = load i32, ptr @flags, align 4
  %2 = and i32 %1, 1
  ret i32 %2
}

; Function Attrs: noinline nounwind optnone uwtable
define dso_local i32 @count() #0 {
  %1 = load i32, ptr @flags, align 4
  %2 = lshr i32 %1, 2
  %3 = and i32 %2, 262143
  ret i32 %3
}

attributes #0 = { noinline nounwind optnone uwtable "frame-pointer"="all" "min-legal-vector-width"="0" "no-trapping-math"="true" "stack-protector-buffer-size"="8" "target-cpu"="x86-64" "target-features"="+cx8,+fxsr,+mmx,+sse,+sse2,+x87" "tune-cpu"="generic" }

!llvm.module.flags = !{!0, !1, !2, !3, !4}
!llvm.ident = !{!5}

!0 = !{i32 1, !"wchar_size", i32 4}
!1 = !{i32 7, !"PIC Level", i32 2}
!2 = !{i32 7, !"PIE Level", i32 2}
!3 = !{i32 7, !"uwtable", i32 1}
!4 = !{i32 7, !"frame-pointer", i32 2}
!5 = !{!"Debian clang version 14.0.6"}
