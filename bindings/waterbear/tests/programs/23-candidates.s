; expect: other: data below zero (DIFF-13, DIFF-14)
; a candidate would make the byte -1, which waterbear takes and document 01 does not
  jmpf .l
.l:
  .byte .l - 3
