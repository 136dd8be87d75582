declare ptr @k.alloc(i64)
declare void @k.free(ptr)
define ptr @get(i64 %n) {
  %p = call ptr @k.alloc(i64 %n)
  ret ptr %p
}
define void @put(ptr %p) {
  call void @k.free(ptr %p)
  ret void
}
