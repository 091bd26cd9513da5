; A tree with a routine: the parties of one child meet, and the other's only party leaves and comes back.
.cell ends
.phaser root 0 onadvance count
.phaser left 2 parent root
.phaser right 1 parent root
.thread a meet
.thread b meet
.thread c alone
meet: paaa r0 left
jmp meet
alone: paaa r1 right
pdereg r2 right
preg r3 right
jmp alone
count: lds r5 ends
ldi r6 1
add r5 r5 r6
sts r5 ends
ldi r0 0
ret
