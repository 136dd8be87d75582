; ModuleID = 'disk.c'
source_filename = "disk.c"
target datalayout = "e-m:e-p270:32:32-p271:32:32-p272:64:64-i64:64-f80:128-n8:16:32:64-S128"
target triple = "x86_64-pc-linux-gnu"

%struct.disk_ops = type { ptr, ptr }
%struct.disk = type { ptr, ptr }
%struct.cache = type { i64, i64, [16 x i8] }

@ops = internal global %struct.disk_ops { ptr @disk_read, ptr @disk_close }, align 8

; Function Attrs: noinline nounwind optnone uwtable
define dso_local i32 @init() #0 {
  %1 = call ptr @disk_add(ptr noundef @ops)
  %2 = icmp ne ptr %1, null
  br i1 %2, label %3, label %6

3:                                                ; preds = %0
  %4 = call ptr @disk_add(ptr noundef @ops)
  %5 = icmp ne ptr %4, null
  br label %6

6:                                                ; preds = %3, %0
  %7 = phi i1 [ false, %0 ], [ %5, %3 ]
  %8 = zext i1 %7 to i64
  %9 = select i1 %7, i32 0, i32 -12
  ret i32 %9
}

declare ptr @disk_add(ptr noundef) #1

; Function Attrs: noinline nounwind optnone uwtable
define internal i32 @disk_read(ptr noundef %0, i64 noundef %1, ptr noundef %2) #0 {
  %4 = alloca i32, align 4
  %5 = alloca ptr, align 8
  %6 = alloca i64, align 8
  %7 = alloca ptr, align 8
  %8 = alloca ptr, align 8
  %9 = alloca i32, align 4
  store ptr %0, ptr %5, align 8
  store i64 %1, ptr %6, align 8
  store ptr %2, ptr %7, align 8
  %10 = load ptr, ptr %5, align 8
  %11 = getelementptr inbounds %struct.disk, ptr %10, i32 0, i32 1
  %12 = load ptr, ptr %11, align 8
  store ptr %12, ptr %8, align 8
  %13 = load ptr, ptr %8, align 8
  %14 = icmp ne ptr %13, null
  br i1 %14, label %23, label %15

15:                                               ; preds = %3
  %16 = call ptr @alloc(i64 noundef 32)
  store ptr %16, ptr %8, align 8
  %17 = load ptr, ptr %8, align 8
  %18 = icmp ne ptr %17, null
  br i1 %18, label %20, label %19

19:                                               ; preds = %15
  store i32 -12, ptr %4, align 4
  br label %53

20:                                               ; preds = %15
  %21 = load ptr, ptr %5, align 8
  %22 = load ptr, ptr %8, align 8
  call void @disk_private(ptr noundef %21, ptr noundef %22)
  br label %23

23:                                               ; preds = %20, %3
  %24 = load ptr, ptr %8, align 8
  %25 = getelementptr inbounds %struct.cache, ptr %24, i32 0, i32 0
  %26 = load i64, ptr %25, align 8
  %27 = add i64 %26, 1
  store i64 %27, ptr %25, align 8
  %28 = load i64, ptr %6, align 8
  %29 = load ptr, ptr %8, align 8
  %30 = getelementptr inbounds %struct.cache, ptr %29, i32 0, i32 1
  store i64 %28, ptr %30, align 8
  store i32 0, ptr %9, align 4
  br label %31

31:                                               ; preds = %49, %23
  %32 = load i32, ptr %9, align 4
  %33 = icmp slt i32 %32, 16
  br i1 %33, label %34, label %52

34:                                               ; preds = %31
  %35 = load i64, ptr %6, align 8
  %36 = load i32, ptr %9, align 4
  %37 = sext i32 %36 to i64
  %38 = add i64 %35, %37
  %39 = trunc i64 %38 to i8
  %40 = load ptr, ptr %8, align 8
  %41 = getelementptr inbounds %struct.cache, ptr %40, i32 0, i32 2
  %42 = load i32, ptr %9, align 4
  %43 = sext i32 %42 to i64
  %44 = getelementptr inbounds [16 x i8], ptr %41, i64 0, i64 %43
  store i8 %39, ptr %44, align 1
  %45 = load ptr, ptr %7, align 8
  %46 = load i32, ptr %9, align 4
  %47 = sext i32 %46 to i64
  %48 = getelementptr inbounds i8, ptr %45, i64 %47
  store i8 %39, ptr %48, align 1
  br label %49

49:                                               ; preds = %34
  %50 = load i32, ptr %9, align 4
  %51 = add nsw i32 %50, 1
  store i32 %51, ptr %9, align 4
  br label %31, !llvm.loop !6

52:                                               ; preds = %31
  store i32 16, ptr %4, align 4
  br label %53

53:                                               ; preds = %52, %19
  %54 = load i32, ptr %4, align 4
  ret i32 %54
}

; Function Attrs: noinline nounwind optnone uwtable
define internal i32 @disk_close(ptr noundef %0) #0 {
  %2 = alloca ptr, align 8
  store ptr %0, ptr %2, align 8
  %3 = load ptr, ptr %2, align 8
  %4 = getelementptr inbounds %struct.disk, ptr %3, i32 0, i32 1
  %5 = load ptr, ptr %4, align 8
  %6 = icmp ne ptr %5, null
  br i1 %6, label %7, label %11

7:                                                ; preds = %1
  %8 = load ptr, ptr %2, align 8
  %9 = getelementptr inbounds %struct.disk, ptr %8, i32 0, i32 1
  %10 = load ptr, ptr %9, align 8
  call void @release(ptr noundef %10)
  br label %11

11:                                               ; preds = %7, %1
  ret i32 0
}

declare ptr @alloc(i64 noundef) #1

declare void @disk_private(ptr noundef, ptr noundef) #1

declare void @release(ptr noundef) #1

attributes #0 = { noinline nounwind optnone uwtable "frame-pointer"="all" "min-legal-vector-width"="0" "no-trapping-math"="true" "stack-protector-buffer-size"="8" "target-cpu"="x86-64" "target-features"="+cx8,+fxsr,+mmx,+sse,+sse2,+x87" "tune-cpu"="generic" }
attributes #1 = { "frame-pointer"="all" "no-trapping-math"="true" "stack-protector-buffer-size"="8" "target-cpu"="x86-64" "target-features"="+cx8,+fxsr,+mmx,+sse,+sse2,+x87" "tune-cpu"="generic" }

!llvm.module.flags = !{!0, !1, !2, !3, !4}
!llvm.ident = !{!5}

!0 = !{i32 1, !"wchar_size", i32 4}
!1 = !{i32 7, !"PIC Level", i32 2}
!2 = !{i32 7, !"PIE Level", i32 2}
!3 = !{i32 7, !"uwtable", i32 1}
!4 = !{i32 7, !"frame-pointer", i32 2}
!5 = !{!"Debian clang version 14.0.6"}
!6 = distinct !{!6, !7}
!7 = !{!"llvm.loop.mustprogress"}
