; The count begins again when the phase ends.
.phaser p 2
.thread ann main
main: parr r0 p
      parrived r1 p
      parr r2 p
      parrived r3 p
      halt
