declare ptr @give(i64)
declare void @want(ptr)
define void @take() {
  %p = call ptr @give(i64 1)
  call void @want(ptr %p)
  ret void
}
define void @show(ptr %p) {
  call void @want(ptr %p)
  ret void
}
