%struct.ops = type { ptr, ptr }
@ops = global %struct.ops { ptr @first, ptr @later }
declare void @lxfi_princ_alias(ptr, ptr)
define void @first(ptr %d, ptr %p) {
  %e = getelementptr i8, ptr %d, i64 1
  call void @lxfi_princ_alias(ptr %d, ptr %e)
  ret void
}
define void @later(ptr %d, ptr %p) {
  store i64 1, ptr %p
  ret void
}
