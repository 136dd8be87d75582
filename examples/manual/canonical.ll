%struct.table = type { ptr }
%struct.other = type { ptr }
@table = global %struct.table zeroinitializer
@other = global %struct.other { ptr @f }
declare void @set(ptr)
define void @f(ptr %p, i64 %q) {
  ret void
}
define void @init() {
  %f = load ptr, ptr @other
  store ptr %f, ptr @table
  call void @set(ptr @table)
  ret void
}
