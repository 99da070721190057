; A leaf, and a function that calls it: both get nounwind, and so does the call.
define internal void @leaf() {
  ret void
}
define void @top() {
  call void @leaf()
  ret void
}
