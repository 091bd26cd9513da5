; The view of phase 0, of phase 1, and of phase 1 terminated.
.phaser p 1
.thread ann main
main: pphase r0 p
      parr r1 p
      pphase r2 p
      pforce p
      pphase r3 p
      halt
