; refused: a global
@held = internal global i32 0, align 4

define i32 @export(ptr noundef %a0) #0 {
start:
  %r0 = load i8, ptr %a0, align 1
  %r1 = zext i8 %r0 to i32
  ret i32 %r1
}
