; A party that leaves no longer counts.
.phaser p 2
.thread ann main
main: pparties r0 p
      pdereg r1 p
      pparties r2 p
      halt
