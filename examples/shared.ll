@box = global ptr null
declare ptr @get(i64)
declare void @put(ptr)
define void @make() {
  %p = call ptr @get(i64 8)
  store ptr %p, ptr @box
  ret void
}
define void @drop() {
  %p = load ptr, ptr @box
  call void @put(ptr %p)
  ret void
}
define void @poke() {
  %p = load ptr, ptr @box
  store i64 5, ptr %p
  store i64 6, ptr %p
  ret void
}
