; expect: other: a .cnop of a multiple over 256
; the jump shrinks to $200, where the .cnop could stay: but then the number would not name its nop any more
  .org $1fe
  jmpf $402
  .cnop 0, $200
  nop
  nop
  nop
