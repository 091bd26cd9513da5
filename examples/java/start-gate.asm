; A start gate: two threads begin their work when a third one lets them.
.phaser gate 3         ; new Phaser(3)
.thread opener open
.thread ann work
.thread bob work
open: pdereg r0 gate   ; gate.arriveAndDeregister()
      out r0           ; prints 0
      halt
work: paaa r0 gate     ; gate.arriveAndAwaitAdvance()
      out r0           ; prints 1
      halt
