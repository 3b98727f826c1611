; A routine of a tray: a stripe is marked open, a part of it is written, it is marked closed. If the tray answers with an error at any
; time, the stripe stays marked open.
.include "tray.i"

%macro fail_unless_zero
  bz .fine%
  jmpf failed
.fine%:
%end

reset:
  jmpf write
  .org 8
write:
  mov #open, mark
  callf send_mark
  fail_unless_zero
  mov #blocks, left
.next:
  ld @r0
  callf send
  be #error, .bad
  jmpf .good
.bad:
  jmpf failed
.good:
  inc 0
  dbnz left, .next
  mov #closed, mark
  callf send_mark
  fail_unless_zero
  ret
send_mark:
  ld mark
  jmpf send_entry       ; a constant, by its number (C-15)
send:
  bp status, ready, .ready
  jmpf send
.ready:
  st port
  ld status
  ret
failed:
  set1 status, failure
  ret
  .cnop 0, 128
entries:
  .word write, send_mark, send, failed
  .cnop 0, 128
bits:
  .byte 1, 2, 4, 8, 16, 32, 64, 128
