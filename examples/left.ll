; ModuleID = 'left.c'
source_filename = "left.c"
target datalayout = "e-m:e-p270:32:32-p271:32:32-p272:64:64-i64:64-f80:128-n8:16:32:64-S128"
target triple = "x86_64-pc-linux-gnu"

; Function Attrs: noinline nounwind optnone uwtable
define dso_local i32 @send(i64 noundef %0) #0 {
  %2 = alloca i32, align 4
  %3 = alloca i64, align 8
  %4 = alloca ptr, align 8
  store i64 %0, ptr %3, align 8
  %5 = call i32 @queue_lock()
  %6 = icmp ne i32 %5, 0
  br i1 %6, label %8, label %7

7:                                                ; preds = %1
  store i32 -16, ptr %2, align 4
  br label %17

8:                                                ; preds = %1
  %9 = call ptr @device_get(i64 noundef 0)
  store ptr %9, ptr %4, align 8
  %10 = load i64, ptr %3, align 8
  %11 = icmp ugt i64 %10, 1500
  br i1 %11, label %12, label %13

12:                                               ; preds = %8
  store i32 -90, ptr %2, align 4
  br label %17

13:                                               ; preds = %8
  %14 = load ptr, ptr %4, align 8
  %15 = load i64, ptr %3, align 8
  call void @device_send(ptr noundef %14, i64 noundef %15)
  %16 = load ptr, ptr %4, align 8
  call void @device_put(ptr noundef %16)
  call void @queue_unlock()
  store i32 0, ptr %2, align 4
  br label %17

17:                                               ; preds = %13, %12, %7
  %18 = load i32, ptr %2, align 4
  ret i32 %18
}

declare i32 @queue_lock() #1

declare ptr @device_get(i64 noundef) #1

declare void @device_send(ptr noundef, i64 noundef) #1

declare void @device_put(ptr noundef) #1

declare void @queue_unlock() #1

attributes #0 = { noinline nounwind optnone uwtable "frame-pointer"="all" "min-legal-vector-width"="0" "no-trapping-math"="true" "stack-protector-buffer-size"="8" "target-cpu"="x86-64" "target-features"="+cx8,+fxsr,+mmx,+sse,+sse2,+x87" "tune-cpu"="generic" }
attributes #1 = { "frame-pointer"="all" "no-trapping-math"="true" "stack-protector-buffer-size"="8" "target-cpu"="x86-64" "target-features"="+cx8,+fxsr,+mmx,+sse,+sse2,+x87" "tune-cpu"="generic" }

!llvm.module.flags = !{!0, !1, !2, !3, !4}
!llvm.ident = !{!5}

!0 = !{i32 1, !"wchar_size", i32 4}
!1 = !{i32 7, !"PIC Level", i32 2}
!2 = !{i32 7, !"PIE Level", i32 2}
!3 = !{i32 7, !"uwtable", i32 1}
!4 = !{i32 7, !"frame-pointer", i32 2}
!5 = !{!"Debian clang version 14.0.6"}
