define i32 @f(i32 %a) {
  %s = alloca i32
  store i32 %a, ptr %s
  %v = load i32, ptr %s
  ret i32 %v
}
