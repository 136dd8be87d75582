%struct.dev_ops = type { ptr, ptr }
@ops = global %struct.dev_ops { ptr @probe, ptr @xmit }
@keep = global ptr null
declare ptr @dev_register(ptr)
define void @init() {
  %d = call ptr @dev_register(ptr @ops)
  ret void
}
define i32 @probe(ptr %d) {
%b = load ptr, ptr @keep
store i64 6, ptr %b
ret i32 0
}
define i32 @xmit(ptr %s, ptr %d) {
%b = load ptr, ptr %s
store i64 5, ptr %b
store ptr %b, ptr @keep
ret i32 0
}
