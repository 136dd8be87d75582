declare void @k.slot.act(ptr)
define void @open(ptr %s) {
  ret void
}
define void @go(ptr %s) {
  call void @k.slot.act(ptr %s)
  ret void
}
define void @stop() {
  ret void
}
