declare void @dev_wipe(ptr, i64)
declare void @dev_zero(ptr, i64)
define void @main() {
  %b = alloca i64
  call void @dev_zero(ptr %b, i64 8)
  call void @dev_wipe(ptr %b, i64 8)
  ret void
}
