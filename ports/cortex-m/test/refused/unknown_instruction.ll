; refused: an instruction that is not known
define void @export(ptr noundef %a0) #0 {
start:
  fence seq_cst
  ret void
}
