; expect: same image and debug info
; data without bytes stands between the branch and the jump: no fold
g:
  bz .s
  .byte ""
  jmpf far
.s:
  nop
far:
  jmpf g
