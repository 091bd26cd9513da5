; A first phase, two policies, and the view that a terminated phaser shows. The last choice names a thread that isn't
; there, and so ends the run.
.phaser p 1 phase 2147483647 never  ; the phase after 2147483647 is 0
.phaser q 1 phase 6 until 7         ; terminates as phase 7 ends
.thread t main
main: parr r0 p
      parr r1 q
      parr r2 q
      paaa r3 q                     ; terminated: answers the view, a negative number
      halt
