; ModuleID = 'principals.c'
source_filename = "principals.c"
target datalayout = "e-m:e-p270:32:32-p271:32:32-p272:64:64-i64:64-f80:128-n8:16:32:64-S128"
target triple = "x86_64-pc-linux-gnu"

%struct.ops = type { ptr, ptr, ptr, ptr }

@ops = internal global %struct.ops { ptr @open_box, ptr @poke_box, ptr @sum_box, ptr @tidy_box }, align 8
@opened = internal global i64 0, align 8
@box = internal global ptr null, align 8

; Function Attrs: noinline nounwind optnone uwtable
define dso_local void @init() #0 {
  call void @set(ptr noundef @ops)
  ret void
}

declare void @set(ptr noundef) #1

; Function Attrs: noinline nounwind optnone uwtable
define internal i64 @open_box(ptr noundef %0) #0 {
  %2 = alloca ptr, align 8
  store ptr %0, ptr %2, align 8
  %3 = load i64, ptr @opened, align 8
  %4 = add i64 %3, 1
  store i64 %4, ptr @opened, align 8
  %5 = call ptr @get(i64 noundef 8)
  store ptr %5, ptr @box, align 8
  ret i64 0
}

; Function Attrs: noinline nounwind optnone uwtable
define internal i64 @poke_box(ptr noundef %0) #0 {
  %2 = alloca ptr, align 8
  store ptr %0, ptr %2, align 8
  %3 = load ptr, ptr @box, align 8
  store i64 1, ptr %3, align 8
  ret i64 1
}

; Function Attrs: noinline nounwind optnone uwtable
define internal i64 @sum_box(ptr noundef %0) #0 {
  %2 = alloca ptr, align 8
  store ptr %0, ptr %2, align 8
  %3 = load ptr, ptr @box, align 8
  store i64 2, ptr %3, align 8
  ret i64 2
}

; Function Attrs: noinline nounwind optnone uwtable
define internal i64 @tidy_box(ptr noundef %0) #0 {
  %2 = alloca ptr, align 8
  store ptr %0, ptr %2, align 8
  %3 = load ptr, ptr @box, align 8
  store i64 3, ptr %3, align 8
  ret i64 3
}

declare ptr @get(i64 noundef) #1

attributes #0 = { noinline nounwind optnone uwtable "frame-pointer"="all" "min-legal-vector-width"="0" "no-trapping-math"="true" "stack-protector-buffer-size"="8" "target-cpu"="x86-64" "target-features"="+cx8,+fxsr,+mmx,+sse,+sse2,+x87" "tune-cpu"="generic" }
attributes #1 = { "frame-pointer"="all" "no-trapping-math"="true" "stack-protector-buffer-size"="8" "target-cpu"="x86-64" "target-features"="+cx8,+fxsr,+mmx,+sse,+sse2,+x87" "tune-cpu"="generic" }

!llvm.module.flags = !{!0, !1, !2, !3, !4}
!llvm.ident = !{!5}

!0 = !{i32 1, !"wchar_size", i32 4}
!1 = !{i32 7, !"PIC Level", i32 2}
!2 = !{i32 7, !"PIE Level", i32 2}
!3 = !{i32 7, !"uwtable", i32 1}
!4 = !{i32 7, !"frame-pointer", i32 2}
!5 = !{!"Debian clang version 14.0.6"}
