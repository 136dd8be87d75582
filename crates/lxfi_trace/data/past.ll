@g = global i32 0
define i32 @main() {
  store i64 7, ptr @g
  %v = load i32, ptr @g
  ret i32 %v
}
