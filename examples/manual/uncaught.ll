%struct.record = type { [8 x i8], i64 }
@record = global %struct.record zeroinitializer
declare ptr @get(i64)
declare void @fill(ptr, i64)
define i64 @inside() {
  %ninth = getelementptr %struct.record, ptr @record, i64 0, i32 0, i64 8
  store i8 9, ptr %ninth
  %size = getelementptr %struct.record, ptr @record, i64 0, i32 1
  %v = load i64, ptr %size
  ret i64 %v
}
define i64 @neighbour() {
  %a = call ptr @get(i64 16)
  %b = call ptr @get(i64 16)
  %behind = getelementptr i8, ptr %a, i64 16
  store i64 5, ptr %behind
  %v = load i64, ptr %b
  ret i64 %v
}
define i64 @look() {
  %v = load i64, ptr inttoptr (i64 16777216 to ptr)
  ret i64 %v
}
define i64 @through() {
  call void @fill(ptr inttoptr (i64 16777216 to ptr), i64 7)
  %v = load i64, ptr inttoptr (i64 16777216 to ptr)
  ret i64 %v
}
