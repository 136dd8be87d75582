define void @shifts(i64 %a, i64 %b) {
  ret void
}
define void @compares(i64 %a, i64 %b) {
  ret void
}
define void @lazy(ptr %p) {
  ret void
}
define void @loads(ptr %p) {
  ret void
}
