; The root is phaser 0 of the program. A root has no parent, which is -1.
.phaser root 0
.phaser team 1 parent root
.thread ann main
main: pparent r0 team
      pparent r1 root
      halt
