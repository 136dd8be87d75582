declare ptr @hook_get()
define i64 @main() {
  %f = call ptr @hook_get()
  %r = call i64 %f(i64 41)
  ret i64 %r
}
define i64 @wild() {
  %f = inttoptr i64 65792 to ptr
  %r = call i64 %f(i64 1)
  ret i64 %r
}
