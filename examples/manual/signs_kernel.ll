define void @take_i8(i8 %n) {
  ret void
}
define void @take_u8(i8 %n) {
  ret void
}
define void @take_bool(i1 %n) {
  ret void
}
