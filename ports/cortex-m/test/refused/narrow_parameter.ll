; refused: an exported call with a parameter narrower than a word
define void @export(i8 noundef %a0) #0 {
start:
  ret void
}
