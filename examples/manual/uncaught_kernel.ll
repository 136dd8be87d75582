@secret = global i64 42
declare ptr @k.alloc(i64)
define ptr @get(i64 %n) {
  %p = call ptr @k.alloc(i64 %n)
  ret ptr %p
}
define void @fill(ptr %p, i64 %v) {
  store i64 %v, ptr %p
  ret void
}
