; expect: same image and debug info
; a number into a .cnop of a multiple over 256, which does not move
  jmpf $30
  nop
  .cnop 0, $200
  jmpf $31
