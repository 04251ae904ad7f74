; refused: a comparison of pointers
define i32 @export(ptr noundef %a0, ptr noundef %a1) #0 {
start:
  %r0 = icmp ult ptr %a0, %a1
  %r1 = zext i1 %r0 to i32
  ret i32 %r1
}
