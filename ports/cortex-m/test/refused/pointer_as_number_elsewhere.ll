; refused: used both as a pointer and as a number
; The pointer is written by one function, copied by a second, and its upper half read by a third.
define i32 @export(ptr noundef %a0) #0 {
start:
  %r0 = alloca [32 x i8], align 8
  %r1 = alloca [16 x i8], align 8
  %r2 = getelementptr i8, ptr %r0, i64 16
  call void @written(ptr %r2, ptr %a0)
  call void @copied(ptr %r1, ptr %r2)
  %r3 = call i32 @read(ptr %r1)
  ret i32 %r3
}

define internal void @written(ptr noundef %a0, ptr noundef %a1) #0 {
start:
  store ptr %a1, ptr %a0, align 8
  ret void
}

define internal void @copied(ptr noundef %a0, ptr noundef %a1) #0 {
start:
  call void @llvm.memmove.p0.p0.i64(ptr %a0, ptr %a1, i64 16, i1 false)
  ret void
}

define internal i32 @read(ptr noundef %a0) #0 {
start:
  %r0 = getelementptr i8, ptr %a0, i64 4
  %r1 = load i32, ptr %r0, align 4
  ret i32 %r1
}
