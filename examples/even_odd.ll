; Two functions that call each other: nothing in them unwinds, so both get nounwind.
define internal void @even() {
  call void @odd()
  ret void
}
define internal void @odd() {
  call void @even()
  ret void
}
define void @start() {
  call void @even()
  ret void
}
