; expect: same image and debug info
k = <($7fffffff + 1)
a:
  mov #<($7fffffff + 1), $30
  add #k
  jmpf a
