%struct.timer = type { ptr }
@table = global %struct.timer { ptr @on_tick }
@last = global i32 0
declare void @timer_set(ptr)
define void @start() {
  %fn = load ptr, ptr @table
  call void @timer_set(ptr %fn)
  ret void
}
define void @on_tick(i64 %now) {
  store i64 %now, ptr @last
  ret void
}
