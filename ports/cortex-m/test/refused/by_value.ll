; refused: a by-value or struct-return attribute
define internal void @inner(ptr noundef byval([8 x i8]) %a0) #0 {
start:
  ret void
}
