; expect: same image and debug info
; a constant as a target that does not move stays as written, in the debug information too
entry = 0
  nop
  br entry
  jmpf a
a:
  nop
