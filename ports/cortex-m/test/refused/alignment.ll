; refused: alignment above 8
define void @export() #0 {
start:
  %r0 = alloca [16 x i8], align 16
  ret void
}
