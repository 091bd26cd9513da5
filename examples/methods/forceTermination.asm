; The waiting thread may continue at once. Its call returns the view: phase 0, terminated.
.phaser p 2
.thread ann main
.thread bob other
main:  paaa r0 p
       halt
other: pforce p
       halt
