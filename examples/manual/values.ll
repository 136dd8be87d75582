@five = global i64 5
declare void @shifts(i64, i64)
declare void @compares(i64, i64)
declare void @lazy(ptr)
declare void @loads(ptr)
define void @shift(i64 %a, i64 %b) {
  call void @shifts(i64 %a, i64 %b)
  ret void
}
define void @compare(i64 %a, i64 %b) {
  call void @compares(i64 %a, i64 %b)
  ret void
}
define void @decide(ptr %p) {
  call void @lazy(ptr %p)
  ret void
}
define void @look(ptr %p) {
  call void @loads(ptr %p)
  ret void
}
