declare void @dev_zero(ptr, i64)
define i64 @read(ptr %p) {
  %v = load i64, ptr %p
  ret i64 %v
}
define i32 @div(i32 %a, i32 %b) {
  %q = sdiv i32 %a, %b
  ret i32 %q
}
define void @never() {
  unreachable
}
define void @large() {
  %p = alloca [65537 x i8]
  ret void
}
define void @deep() {
  call void @deep()
  ret void
}
define i64 @id(i64 %n) {
  ret i64 %n
}
define i64 @narrow(ptr %f) {
  %r = call i64 %f(i32 1)
  ret i64 %r
}
