%struct.point = type { i8, i32 }
@bytes = global [8 x i8] c"abcdefgh"
@points = global [2 x %struct.point] [%struct.point { i8 1, i32 2 }, %struct.point { i8 3, i32 4 }]
@two = global i8 2
define i8 @add(i8 %a, i8 %b) {
  %r = add i8 %a, %b
  ret i8 %r
}
define i32 @sdiv(i32 %a, i32 %b) {
  %r = sdiv i32 %a, %b
  ret i32 %r
}
define i32 @srem(i32 %a, i32 %b) {
  %r = srem i32 %a, %b
  ret i32 %r
}
define i32 @udiv(i32 %a, i32 %b) {
  %r = udiv i32 %a, %b
  ret i32 %r
}
define i32 @shl(i32 %a, i32 %b) {
  %r = shl i32 %a, %b
  ret i32 %r
}
define i32 @lshr(i32 %a, i32 %b) {
  %r = lshr i32 %a, %b
  ret i32 %r
}
define i32 @ashr(i32 %a, i32 %b) {
  %r = ashr i32 %a, %b
  ret i32 %r
}
define i1 @slt(i8 %a, i8 %b) {
  %r = icmp slt i8 %a, %b
  ret i1 %r
}
define i1 @ult(i8 %a, i8 %b) {
  %r = icmp ult i8 %a, %b
  ret i1 %r
}
define i64 @sext(i8 %a) {
  %r = sext i8 %a to i64
  ret i64 %r
}
define i64 @zext(i8 %a) {
  %r = zext i8 %a to i64
  ret i64 %r
}
define i8 @trunc(i64 %a) {
  %r = trunc i64 %a to i8
  ret i8 %r
}
define i8 @ptrtoint() {
  %r = ptrtoint ptr @points to i8
  ret i8 %r
}
define ptr @inttoptr(i8 %a) {
  %r = inttoptr i8 %a to ptr
  ret ptr %r
}
define i32 @undefined() {
  %r = add i32 undef, poison
  ret i32 %r
}
define i64 @fresh() {
  %p = alloca i64
  %v = load i64, ptr %p
  ret i64 %v
}
define i1 @lowest() {
  %v = load i1, ptr @two
  ret i1 %v
}
define i64 @overlap() {
  %to = getelementptr i8, ptr @bytes, i64 2
  call void @llvm.memcpy.p0.p0.i64(ptr %to, ptr @bytes, i64 6, i1 false)
  %v = load i64, ptr @bytes
  ret i64 %v
}
define ptr @member(i64 %n) {
  %p = getelementptr %struct.point, ptr @points, i64 %n, i32 1
  ret ptr %p
}
define i32 @choose(i32 %n) {
  switch i32 %n, label %other [
    i32 1, label %one
    i32 2, label %end
  ]
one:
  br label %end
other:
  br label %end
end:
  %r = phi i32 [ 20, %0 ], [ 10, %one ], [ %n, %other ]
  ret i32 %r
}
