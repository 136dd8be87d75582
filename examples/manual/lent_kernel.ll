define void @pass(ptr %p) {
  ret void
}
