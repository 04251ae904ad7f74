; refused: a pointer at a variable offset, or behind one
define void @export(ptr noundef %a0, i64 noundef %a1) #0 {
start:
  %r0 = alloca [64 x i8], align 8
  %r1 = mul nuw i64 %a1, 16
  %r2 = getelementptr i8, ptr %r0, i64 %r1
  store ptr %a0, ptr %r2, align 8
  ret void
}
