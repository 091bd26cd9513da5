; A routine as `onAdvance`: the last to arrive runs it, with the phase in r0 and the registered parties in r1, and has its
; own registers back afterwards. Where r0 isn't 0 at `ret` the phaser terminates: here at the end of phase 1.
.cell ends
.phaser p 2 onadvance count
.thread a main
.thread b main
main:  paaa r2 p
       paaa r3 p
       halt
count: lds r5 ends
       ldi r6 1
       add r5 r5 r6
       sts r5 ends
       ret
