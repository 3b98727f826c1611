; expect: same image and debug info
; the jump that a fold drops is a Br to a label nearby
loop:
  nop
  bz .s
  br loop
.s:
  jmpf loop
