define ptr @give(i64 %n) {
  ret ptr @thing
}
@thing = global [4 x i64] [i64 1, i64 4096, i64 7, i64 0]
define void @want(ptr %p) {
  ret void
}
