%struct.dev_ops = type { ptr, ptr }
@ops = global %struct.dev_ops { ptr @probe, ptr @xmit }
declare ptr @dev_register(ptr)
declare i32 @netif_rx(ptr)
define void @init() {
  %d = call ptr @dev_register(ptr @ops)
  ret void
}
define i32 @probe(ptr %d) {
  ret i32 0
}
define i32 @xmit(ptr %s, ptr %d) {
  %r = call i32 @netif_rx(ptr %s)
  ret i32 %r
}
