%struct.ops = type { ptr, ptr }
@ops = global %struct.ops { ptr @use, ptr @give }
declare void @pass(ptr)
define void @use(ptr %p) {
  store i64 1, ptr %p
  ret void
}
define void @give(ptr %p) {
  call void @pass(ptr %p)
  ret void
}
define void @late(ptr %p) {
  store i64 2, ptr %p
  ret void
}
