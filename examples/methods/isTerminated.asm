; The default rule: the phaser terminates when its last party leaves.
.phaser p 1
.thread ann main
main: pterm r0 p
      pdereg r1 p
      pterm r2 p
      halt
