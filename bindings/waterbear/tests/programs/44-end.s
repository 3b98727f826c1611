; expect: same image and debug info
; the image runs to the highest position (DIFF-16)
  jmpf a
a:
  nop
  .org $20
