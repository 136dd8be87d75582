declare void @dev_zero(ptr, i64)
define void @main(ptr %p, i64 %n) {
  call void @dev_zero(ptr %p, i64 %n)
  ret void
}
