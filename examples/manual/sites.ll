%struct.timer = type { ptr }
%struct.pair = type { i64, %struct.timer }
@first = global %struct.timer { ptr @a }
@second = global %struct.pair zeroinitializer
@third = global [4 x %struct.timer] zeroinitializer
declare void @timer_set(ptr)
define void @a(i64 %now) {
  ret void
}
define void @b(i64 %now) {
  ret void
}
define void @c(i64 %now) {
  ret void
}
define void @d(i64 %now) {
  ret void
}
define void @set_a() {
  call void @timer_set(ptr @a)
  ret void
}
define void @set_b() {
  store ptr @b, ptr getelementptr (%struct.pair, ptr @second, i64 0, i32 1, i32 0)
  call void @timer_set(ptr @b)
  ret void
}
define void @set_c(i64 %n) {
  %p = getelementptr [4 x %struct.timer], ptr @third, i64 0, i64 %n, i32 0
  store ptr @c, ptr %p
  call void @timer_set(ptr @c)
  ret void
}
define void @set_d() {
  call void @timer_set(ptr @d)
  ret void
}
