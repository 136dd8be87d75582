declare void @k.slot.plain(ptr, ptr, i64)
@hook = global ptr null
define void @set(ptr %slot) {
  store ptr %slot, ptr @hook
  ret void
}
define void @go() {
  %slot = load ptr, ptr @hook
  call void @k.slot.plain(ptr %slot, ptr null, i64 0)
  ret void
}
