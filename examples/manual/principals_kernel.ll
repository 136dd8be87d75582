declare ptr @k.alloc(i64)
declare i64 @k.slot.open(ptr, ptr)
declare i64 @k.slot.poke(ptr, ptr)
declare i64 @k.slot.sum(ptr, ptr)
declare i64 @k.slot.tidy(ptr, ptr)
@ops = global ptr null
define ptr @get(i64 %n) {
  %p = call ptr @k.alloc(i64 %n)
  ret ptr %p
}
define void @set(ptr %ops) {
  store ptr %ops, ptr @ops
  ret void
}
define i64 @open(ptr %who) {
  %t = load ptr, ptr @ops
  %r = call i64 @k.slot.open(ptr %t, ptr %who)
  ret i64 %r
}
define i64 @poke(ptr %who) {
  %t = load ptr, ptr @ops
  %s = getelementptr ptr, ptr %t, i64 1
  %r = call i64 @k.slot.poke(ptr %s, ptr %who)
  ret i64 %r
}
define i64 @sum(ptr %who) {
  %t = load ptr, ptr @ops
  %s = getelementptr ptr, ptr %t, i64 2
  %r = call i64 @k.slot.sum(ptr %s, ptr %who)
  ret i64 %r
}
define i64 @tidy(ptr %who) {
  %t = load ptr, ptr @ops
  %s = getelementptr ptr, ptr %t, i64 3
  %r = call i64 @k.slot.tidy(ptr %s, ptr %who)
  ret i64 %r
}
