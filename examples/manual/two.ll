%struct.dev_ops = type { ptr, ptr }
@oa = global %struct.dev_ops { ptr @probe_a, ptr null }
@ob = global %struct.dev_ops { ptr @probe_b, ptr null }
@box = global ptr null
@flag = global i64 0
declare ptr @dev_register(ptr)
declare ptr @kmalloc(i64)
declare void @lxfi_princ_alias(ptr, ptr)
define void @init() {
  %a = call ptr @dev_register(ptr @oa)
  %b = call ptr @dev_register(ptr @ob)
  ret void
}
define void @mode(i64 %v) {
  store i64 %v, ptr @flag
  ret void
}
define i32 @probe_a(ptr %d) {
  %p = load ptr, ptr @box
  store i64 9, ptr %p
  ret i32 0
}
define i32 @probe_b(ptr %d) {
  %p = call ptr @kmalloc(i64 8)
  store ptr %p, ptr @box
  %f = load i64, ptr @flag
  %t = icmp ne i64 %f, 0
  br i1 %t, label %y, label %n
y:
  call void @lxfi_princ_alias(ptr %d, ptr inttoptr (i64 16777248 to ptr))
  br label %n
n:
  ret i32 0
}
