declare void @take_i8(i8)
declare void @take_u8(i8)
declare void @take_bool(i1)
define void @i8() {
  call void @take_i8(i8 -1)
  ret void
}
define void @u8() {
  call void @take_u8(i8 -1)
  ret void
}
define void @bool() {
  call void @take_bool(i1 true)
  ret void
}
