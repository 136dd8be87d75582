@word = global i64 0
define i64 @same(i64 %n) {
  ret i64 %n
}
define i8 @byte(i8 %n) {
  ret i8 %n
}
define i1 @truth(i1 %t) {
  ret i1 %t
}
define ptr @place(ptr %p) {
  ret ptr %p
}
