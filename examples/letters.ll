declare ptr @box_open(i64)
declare ptr @letter_new(i64)
declare void @letter_send(ptr, ptr)
define void @send(i64 %k) {
  %b = call ptr @box_open(i64 %k)
  %l = call ptr @letter_new(i64 8)
  %t = load ptr, ptr %l
  store i64 7, ptr %t
  call void @letter_send(ptr %b, ptr %l)
  ret void
}
define void @send_and_write(i64 %k) {
  %b = call ptr @box_open(i64 %k)
  %l = call ptr @letter_new(i64 8)
  %t = load ptr, ptr %l
  call void @letter_send(ptr %b, ptr %l)
  store i64 7, ptr %t
  ret void
}
