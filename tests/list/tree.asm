; a tree of two phasers, a barrier with an action, two threads, a cell
.phaser root 0 phase 7 until 9
.phaser team 2 parent root
.barrier gate 2 action greet
.thread a main
.thread b main
.cell total

main:  paaa r0 team
       cawait r1 gate
       lds r2 total
       halt
greet: out r0
       ret
