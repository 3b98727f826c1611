; What the routine of the tray names: memory, marks and answers.
mark    = 16            ; the mark that goes to the tray
left    = 17            ; blocks that are left
status  = 18            ; bit 0: the tray is ready; bit 7: writing failed
port    equ $14d
open    = 1
closed  = 0
blocks  = 8
error   = 255
ready   = 0
failure = 7
send_entry = $39        ; where send begins in the long image
