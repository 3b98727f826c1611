; expect: same image and debug info
; a candidate would make the byte -129, which waterbear refuses too
  .org $7d
  jmpf b
c:
  .byte c - b
  .cnop 0, 256
b:
  jmpf c
