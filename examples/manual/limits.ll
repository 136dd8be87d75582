define i64 @down(i64 %n) {
  %last = icmp eq i64 %n, 0
  br i1 %last, label %end, label %more
more:
  %m = sub i64 %n, 1
  %r = call i64 @down(i64 %m)
  %s = add i64 %r, 1
  ret i64 %s
end:
  ret i64 0
}
define void @large(i64 %n) {
  %p = alloca [65536 x i8]
  %one = icmp eq i64 %n, 1
  br i1 %one, label %end, label %more
more:
  %q = alloca i8
  br label %end
end:
  ret void
}
define void @loop() {
  br label %l
l:
  br label %l
}
