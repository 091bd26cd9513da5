; The root of a tree of three levels. A root is its own root.
.phaser root 0
.phaser team 0 parent root
.phaser desk 1 parent team
.thread ann main
main: proot r0 desk
      proot r1 root
      halt
