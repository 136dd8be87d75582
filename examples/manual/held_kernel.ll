@timer = global ptr null
@lock = global i32 0
@inside = global i64 0
@asked = global i64 0
declare i32 @k.try_lock(ptr)
declare void @k.slot.tick(ptr, i64)
define void @timer_set(ptr %fn) {
  store ptr %fn, ptr @timer
  ret void
}
define i32 @locked_tick(i64 %now) {
  %got = call i32 @k.try_lock(ptr @lock)
  %free = icmp ne i32 %got, 0
  br i1 %free, label %go, label %busy
go:
  call void @k.slot.tick(ptr @timer, i64 %now)
  store i32 0, ptr @lock
  ret i32 0
busy:
  ret i32 -16
}
define void @counted_tick(i64 %now) {
  %before = load i64, ptr @inside
  %more = add i64 %before, 1
  store i64 %more, ptr @inside
  call void @k.slot.tick(ptr @timer, i64 %now)
  store i64 %before, ptr @inside
  ret void
}
define i32 @careful_tick(i64 %now) {
  %got = call i32 @k.try_lock(ptr @lock)
  %free = icmp ne i32 %got, 0
  br i1 %free, label %go, label %busy
go:
  store i64 %now, ptr @asked
  store i32 0, ptr @lock
  call void @k.slot.tick(ptr @timer, i64 %now)
  ret i32 0
busy:
  ret i32 -16
}
define i64 @count() {
  %v = load i64, ptr @inside
  ret i64 %v
}
define void @mend() {
  store i32 0, ptr @lock
  store i64 0, ptr @inside
  ret void
}
