declare ptr @k.alloc(i64)
declare void @k.note(i64)
define ptr @box_open(i64 %k) {
  %b = inttoptr i64 %k to ptr
  ret ptr %b
}
define ptr @letter_new(i64 %n) {
  %l = call ptr @k.alloc(i64 16)
  %t = call ptr @k.alloc(i64 %n)
  store ptr %t, ptr %l
  %s = getelementptr i8, ptr %l, i64 8
  store i64 %n, ptr %s
  ret ptr %l
}
define void @letter_send(ptr %b, ptr %l) {
  %s = getelementptr i8, ptr %l, i64 8
  %n = load i64, ptr %s
  call void @k.note(i64 %n)
  ret void
}
