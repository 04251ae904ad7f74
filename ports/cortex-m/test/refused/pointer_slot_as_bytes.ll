; refused: the address of a slot that holds one pointer is used
define void @export(ptr noundef %a0) #0 {
start:
  %r0 = alloca ptr, align 8
  %r1 = alloca [8 x i8], align 8
  store ptr %a0, ptr %r0, align 8
  call void @llvm.memmove.p0.p0.i64(ptr %r1, ptr %r0, i64 8, i1 false)
  ret void
}
