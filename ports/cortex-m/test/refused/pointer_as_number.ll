; refused: used both as a pointer and as a number
define i64 @export(ptr noundef %a0) #0 {
start:
  %r0 = alloca [8 x i8], align 8
  store ptr %a0, ptr %r0, align 8
  %r1 = load i64, ptr %r0, align 8
  ret i64 %r1
}
