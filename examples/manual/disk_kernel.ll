; ModuleID = 'disk_kernel.c'
source_filename = "disk_kernel.c"
target datalayout = "e-m:e-p270:32:32-p271:32:32-p272:64:64-i64:64-f80:128-n8:16:32:64-S128"
target triple = "x86_64-pc-linux-gnu"

%struct.disk = type { ptr, ptr }
%struct.disk_ops = type { ptr, ptr }

@count = internal global i64 0, align 8
@disks = internal global [4 x %struct.disk] zeroinitializer, align 16
@buffer = internal global [16 x i8] zeroinitializer, align 16

; Function Attrs: noinline nounwind optnone uwtable
define dso_local ptr @alloc(i64 noundef %0) #0 {
  %2 = alloca i64, align 8
  store i64 %0, ptr %2, align 8
  %3 = load i64, ptr %2, align 8
  %4 = call ptr @k.alloc(i64 noundef %3)
  ret ptr %4
}

declare ptr @k.alloc(i64 noundef) #1

; Function Attrs: noinline nounwind optnone uwtable
define dso_local void @release(ptr noundef %0) #0 {
  %2 = alloca ptr, align 8
  store ptr %0, ptr %2, align 8
  %3 = load ptr, ptr %2, align 8
  call void @k.free(ptr noundef %3)
  ret void
}

declare void @k.free(ptr noundef) #1

; Function Attrs: noinline nounwind optnone uwtable
define dso_local ptr @disk_add(ptr noundef %0) #0 {
  %2 = alloca ptr, align 8
  %3 = alloca ptr, align 8
  store ptr %0, ptr %3, align 8
  %4 = load i64, ptr @count, align 8
  %5 = icmp eq i64 %4, 4
  br i1 %5, label %6, label %7

6:                                                ; preds = %1
  store ptr null, ptr %2, align 8
  br label %15

7:                                                ; preds = %1
  %8 = load ptr, ptr %3, align 8
  %9 = load i64, ptr @count, align 8
  %10 = getelementptr inbounds [4 x %struct.disk], ptr @disks, i64 0, i64 %9
  %11 = getelementptr inbounds %struct.disk, ptr %10, i32 0, i32 0
  store ptr %8, ptr %11, align 16
  %12 = load i64, ptr @count, align 8
  %13 = add i64 %12, 1
  store i64 %13, ptr @count, align 8
  %14 = getelementptr inbounds [4 x %struct.disk], ptr @disks, i64 0, i64 %12
  store ptr %14, ptr %2, align 8
  br label %15

15:                                               ; preds = %7, %6
  %16 = load ptr, ptr %2, align 8
  ret ptr %16
}

; Function Attrs: noinline nounwind optnone uwtable
define dso_local void @disk_private(ptr noundef %0, ptr noundef %1) #0 {
  %3 = alloca ptr, align 8
  %4 = alloca ptr, align 8
  store ptr %0, ptr %3, align 8
  store ptr %1, ptr %4, align 8
  %5 = load ptr, ptr %4, align 8
  %6 = load ptr, ptr %3, align 8
  %7 = getelementptr inbounds %struct.disk, ptr %6, i32 0, i32 1
  store ptr %5, ptr %7, align 8
  ret void
}

; Function Attrs: noinline nounwind optnone uwtable
define dso_local i32 @do_read(i64 noundef %0, i64 noundef %1) #0 {
  %3 = alloca i64, align 8
  %4 = alloca i64, align 8
  %5 = alloca ptr, align 8
  %6 = alloca i32, align 4
  store i64 %0, ptr %3, align 8
  store i64 %1, ptr %4, align 8
  %7 = load i64, ptr %3, align 8
  %8 = getelementptr inbounds [4 x %struct.disk], ptr @disks, i64 0, i64 %7
  store ptr %8, ptr %5, align 8
  %9 = load ptr, ptr %5, align 8
  %10 = getelementptr inbounds %struct.disk, ptr %9, i32 0, i32 0
  %11 = load ptr, ptr %10, align 8
  %12 = getelementptr inbounds %struct.disk_ops, ptr %11, i32 0, i32 0
  %13 = load ptr, ptr %5, align 8
  %14 = load i64, ptr %4, align 8
  %15 = call i32 @k.slot.read(ptr noundef %12, ptr noundef %13, i64 noundef %14, ptr noundef getelementptr inbounds ([16 x i8], ptr @buffer, i64 0, i64 0))
  store i32 %15, ptr %6, align 4
  %16 = load i8, ptr getelementptr inbounds ([16 x i8], ptr @buffer, i64 0, i64 0), align 16
  %17 = zext i8 %16 to i64
  call void @k.note(i64 noundef %17)
  %18 = load i32, ptr %6, align 4
  ret i32 %18
}

declare i32 @k.slot.read(ptr noundef, ptr noundef, i64 noundef, ptr noundef) #1

declare void @k.note(i64 noundef) #1

; Function Attrs: noinline nounwind optnone uwtable
define dso_local i32 @do_close(i64 noundef %0) #0 {
  %2 = alloca i64, align 8
  %3 = alloca ptr, align 8
  store i64 %0, ptr %2, align 8
  %4 = load i64, ptr %2, align 8
  %5 = getelementptr inbounds [4 x %struct.disk], ptr @disks, i64 0, i64 %4
  store ptr %5, ptr %3, align 8
  %6 = load ptr, ptr %3, align 8
  %7 = getelementptr inbounds %struct.disk, ptr %6, i32 0, i32 0
  %8 = load ptr, ptr %7, align 8
  %9 = getelementptr inbounds %struct.disk_ops, ptr %8, i32 0, i32 1
  %10 = load ptr, ptr %3, align 8
  %11 = call i32 @k.slot.close(ptr noundef %9, ptr noundef %10)
  ret i32 %11
}

declare i32 @k.slot.close(ptr noundef, ptr noundef) #1

attributes #0 = { noinline nounwind optnone uwtable "frame-pointer"="all" "min-legal-vector-width"="0" "no-trapping-math"="true" "stack-protector-buffer-size"="8" "target-cpu"="x86-64" "target-features"="+cx8,+fxsr,+mmx,+sse,+sse2,+x87" "tune-cpu"="generic" }
attributes #1 = { "frame-pointer"="all" "no-trapping-math"="true" "stack-protector-buffer-size"="8" "target-cpu"="x86-64" "target-features"="+cx8,+fxsr,+mmx,+sse,+sse2,+x87" "tune-cpu"="generic" }

!llvm.module.flags = !{!0, !1, !2, !3, !4}
!llvm.ident = !{!5}

!0 = !{i32 1, !"wchar_size", i32 4}
!1 = !{i32 7, !"PIC Level", i32 2}
!2 = !{i32 7, !"PIE Level", i32 2}
!3 = !{i32 7, !"uwtable", i32 1}
!4 = !{i32 7, !"frame-pointer", i32 2}
!5 = !{!"Debian clang version 14.0.6"}
