declare void @open(ptr)
declare void @stop()
define void @take(ptr %s, ptr %f) {
  call void @open(ptr %s)
  store ptr %f, ptr %s
  ret void
}
define void @own() {
  ret void
}
