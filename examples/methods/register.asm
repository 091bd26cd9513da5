; A registration counts at once in the present phase.
.phaser p 1
.thread ann main
.thread bob other
main:  preg r0 p
       parr r1 p
       halt
other: paaa r0 p
       halt
