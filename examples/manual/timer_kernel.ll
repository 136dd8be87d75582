@timer = global ptr null
declare void @k.slot.tick(ptr, i64)
define void @timer_set(ptr %fn) {
  store ptr %fn, ptr @timer
  ret void
}
define void @do_tick(i64 %now) {
  call void @k.slot.tick(ptr @timer, i64 %now)
  ret void
}
