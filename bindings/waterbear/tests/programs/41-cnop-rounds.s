; expect: other: a .cnop of a multiple over 256
; the same with a label: the .cnop comes to lie at $200 in both, but ours had chosen a Jmp before that, and waterbear a Br
  .org $1fe
  jmpf b
  .cnop 0, $200
  nop
  nop
b:
  jmpf b
