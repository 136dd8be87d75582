@g = global i64 0
declare void @look(ptr)
declare void @give(ptr, i64)
declare void @turn(ptr)
define void @second() {
  call void @look(ptr @g)
  ret void
}
define void @nothing() {
  call void @give(ptr @g, i64 0)
  ret void
}
define void @turned() {
  call void @turn(ptr @g)
  store i64 1, ptr @g
  ret void
}
