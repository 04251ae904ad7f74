; refused: the caller's memory is taken to be aligned
define i64 @export(ptr noundef %a0) #0 {
start:
  %r0 = alloca ptr, align 8
  store ptr %a0, ptr %r0, align 8
  %r1 = load ptr, ptr %r0, align 8
  %r2 = call i64 @inner(ptr %r1)
  ret i64 %r2
}

define internal i64 @inner(ptr noundef %a0) #0 {
start:
  %r0 = load i64, ptr %a0, align 8
  ret i64 %r0
}
