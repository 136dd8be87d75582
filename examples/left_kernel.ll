%struct.device = type { i64, i64 }
@lock = global i32 0
@devices = global [2 x %struct.device] zeroinitializer
declare i32 @k.try_lock(ptr)
declare void @k.note(i64)
define i32 @queue_lock() {
  %got = call i32 @k.try_lock(ptr @lock)
  ret i32 %got
}
define void @queue_unlock() {
  store i32 0, ptr @lock
  ret void
}
define ptr @device_get(i64 %number) {
  %known = icmp ult i64 %number, 2
  br i1 %known, label %get, label %none
get:
  %device = getelementptr [2 x %struct.device], ptr @devices, i64 0, i64 %number
  %users = load i64, ptr %device
  %more = add i64 %users, 1
  store i64 %more, ptr %device
  ret ptr %device
none:
  ret ptr null
}
define void @device_put(ptr %device) {
  %users = load i64, ptr %device
  %less = sub i64 %users, 1
  store i64 %less, ptr %device
  ret void
}
define void @device_send(ptr %device, i64 %length) {
  call void @k.note(i64 %length)
  ret void
}
define i64 @users(i64 %number) {
  %device = getelementptr [2 x %struct.device], ptr @devices, i64 0, i64 %number
  %users = load i64, ptr %device
  ret i64 %users
}
