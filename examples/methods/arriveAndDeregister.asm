; The last party leaves: the phase ends, and the phaser terminates. A later arrival only returns the view.
.phaser p 1
.thread ann main
main: parr r0 p
      pdereg r1 p
      pterm r2 p
      parr r3 p
      halt
