define void @look(ptr %p) {
  ret void
}
define void @give(ptr %p, i64 %n) {
  ret void
}
define void @turn(ptr %p) {
  ret void
}
