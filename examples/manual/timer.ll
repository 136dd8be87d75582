; ModuleID = 'timer.c'
source_filename = "timer.c"
target datalayout = "e-m:e-p270:32:32-p271:32:32-p272:64:64-i64:64-f80:128-n8:16:32:64-S128"
target triple = "x86_64-pc-linux-gnu"

%struct.timer = type { ptr }

@timer = internal global %struct.timer { ptr @on_tick }, align 8
@last = internal global i64 0, align 8

; Function Attrs: noinline nounwind optnone uwtable
define dso_local void @start() #0 {
  %1 = load ptr, ptr getelementptr inbounds (%struct.timer, ptr @timer, i32 0, i32 0), align 8
  call void @timer_set(ptr noundef %1)
  ret void
}

declare void @timer_set(ptr noundef) #1

; Function Attrs: noinline nounwind optnone uwtable
define dso_local void @wild() #0 {
  call void @timer_set(ptr noundef inttoptr (i64 65648 to ptr))
  ret void
}

; Function Attrs: noinline nounwind optnone uwtable
define dso_local i64 @read_last() #0 {
  %1 = load i64, ptr @last, align 8
  ret i64 %1
}

; Function Attrs: noinline nounwind optnone uwtable
define internal void @on_tick(i64 noundef %0) #0 {
  %2 = alloca i64, align 8
  store i64 %0, ptr %2, align 8
  %3 = load i64, ptr %2, align 8
  store i64 %3, ptr @last, align 8
  ret void
}

attributes #0 = { noinline nounwind optnone uwtable "frame-pointer"="all" "min-legal-vector-width"="0" "no-trapping-math"="true" "stack-protector-buffer-size"="8" "target-cpu"="x86-64" "target-features"="+cx8,+fxsr,+mmx,+sse,+sse2,+x87" "tune-cpu"="generic" }
attributes #1 = { "frame-pointer"="all" "no-trapping-math"="true" "stack-protector-buffer-size"="8" "target-cpu"="x86-64" "target-features"="+cx8,+fxsr,+mmx,+sse,+sse2,+x87" "tune-cpu"="generic" }

!llvm.module.flags = !{!0, !1, !2, !3, !4}
!llvm.ident = !{!5}

!0 = !{i32 1, !"wchar_size", i32 4}
!1 = !{i32 7, !"PIC Level", i32 2}
!2 = !{i32 7, !"PIE Level", i32 2}
!3 = !{i32 7, !"uwtable", i32 1}
!4 = !{i32 7, !"frame-pointer", i32 2}
!5 = !{!"Debian clang version 14.0.6"}
