; A phaser without parties: the first phase is 0, nobody may arrive, and the first registration joins phase 0.
.phaser p 0
.thread ann main
main: pparties r0 p
      pphase r1 p
      preg r2 p
      parr r3 p
      halt
