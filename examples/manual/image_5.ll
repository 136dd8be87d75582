declare ptr @hook_get()
define i64 @main() {
0:
  %f = call ptr @hook_get()
  call void @lxfi.check(ptr %f)
  %r = call i64 %f(i64 41)
  ret i64 %r
}
define i64 @wild() {
0:
  %f = inttoptr i64 65792 to ptr
  call void @lxfi.check(ptr %f)
  %r = call i64 %f(i64 1)
  ret i64 %r
}
define ptr @lxfi.out.hook_get() {
0:
  call void @lxfi.enter(ptr @hook_get)
  %r = call ptr @hook_get()
  call void @lxfi.post(ptr @hook_get, i32 0)
  call void @lxfi.leave(ptr @hook_get)
  ret ptr %r
}
