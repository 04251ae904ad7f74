; refused: a cast between a pointer and an integer
define i64 @export(ptr noundef %a0) #0 {
start:
  %r0 = ptrtoint ptr %a0 to i64
  ret i64 %r0
}
