@g = global [7 x i8] zeroinitializer
define void @main() {
  store i64 7, ptr @g
  ret void
}
