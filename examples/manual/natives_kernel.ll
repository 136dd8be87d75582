declare ptr @k.alloc(i64)
declare void @k.free(ptr)
declare void @k.zero(ptr, i64)
declare i32 @k.try_lock(ptr)
declare void @k.note(i64)
@held = global i32 0
define ptr @alloc(i64 %n) {
  %p = call ptr @k.alloc(i64 %n)
  ret ptr %p
}
define void @free(ptr %p) {
  call void @k.free(ptr %p)
  ret void
}
define i32 @lock() {
  %r = call i32 @k.try_lock(ptr @held)
  ret i32 %r
}
define void @zero(ptr %p, i64 %n) {
  call void @k.zero(ptr %p, i64 %n)
  ret void
}
define void @note(i64 %v) {
  call void @k.note(i64 %v)
  ret void
}
