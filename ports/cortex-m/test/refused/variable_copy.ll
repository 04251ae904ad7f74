; refused: a copy of variable length
define void @export(ptr noundef %a0, ptr noundef %a1, i64 noundef %a2) #0 {
start:
  call void @llvm.memmove.p0.p0.i64(ptr %a0, ptr %a1, i64 %a2, i1 false)
  ret void
}
