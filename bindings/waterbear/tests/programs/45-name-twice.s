; expect: refused by waterbear, same message
; a variable, then a label of that name (DIFF-29)
a = 0
a:
  jmpf a
