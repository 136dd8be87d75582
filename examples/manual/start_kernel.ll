@timer = global ptr null
@shut = global i32 1
declare void @k.slot.tick(ptr, i64)
define void @timer_set(ptr %fn) {
  store ptr %fn, ptr @timer
  ret void
}
define void @do_tick(i64 %now) {
  call void @k.slot.tick(ptr @timer, i64 %now)
  ret void
}
define void @open() {
  store i32 0, ptr @shut
  ret void
}
define void @wait() {
  br label %look
look:
  %shut = load i32, ptr @shut
  %again = icmp ne i32 %shut, 0
  br i1 %again, label %look, label %on
on:
  ret void
}
