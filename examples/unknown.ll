; A chain with an unknown function at its end gets nothing. A promise at the declaration or at the
; call is enough for the caller, and is not repeated.
declare void @unknown()
declare void @quiet() nounwind
define void @first() {
  call void @second()
  ret void
}
define void @second() {
  call void @unknown()
  ret void
}
define void @careful() {
  call void @quiet()
  call void @unknown() nounwind
  ret void
}
