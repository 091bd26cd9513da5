; A child without parties joins its parent at its own first registration.
.phaser root 1
.phaser team 0 parent root
.thread ann main
main: pparties r0 root
      preg r1 team
      pparties r2 root
      halt
