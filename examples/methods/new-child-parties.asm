; A child with parties is one party of its parent, however many it has.
.phaser root 1
.phaser team 3 parent root
.thread ann main
main: pparties r0 root
      pparties r1 team
      pphase r2 team
      halt
