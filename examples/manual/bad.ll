%struct.dev_ops = type { ptr, ptr }
@ops = global %struct.dev_ops { ptr @probe, ptr @xmit }
declare ptr @dev_register(ptr)
declare void @dev_zero(ptr, i64)
define void @init() {
  %d = call ptr @dev_register(ptr @ops)
  ret void
}
define void @bend() {
  store ptr inttoptr (i64 65792 to ptr), ptr @ops
  ret void
}
define void @swap() {
  %s = getelementptr %struct.dev_ops, ptr @ops, i64 0, i32 1
  %f = load ptr, ptr %s
  store ptr %f, ptr @ops
  ret void
}
define void @again() {
  call void @dev_zero(ptr @ops, i64 16)
  store ptr inttoptr (i64 65792 to ptr), ptr @ops
  ret void
}
define i32 @probe(ptr %d) {
  ret i32 0
}
define i32 @xmit(ptr %s, ptr %d) {
  ret i32 0
}
define void @cold() {
  %d = call ptr @dev_register(ptr inttoptr (i64 33554432 to ptr))
  ret void
}
