; A tree of phasers: each child is one party of the root, arrives there once all of its own parties have arrived, and
; leaves it with its last party. The phase ends for the whole tree at once.
.phaser root 0
.phaser left 2 parent root
.phaser right 1 parent root
.thread a meet
.thread b meet
.thread c alone
meet:  paaa r0 left
       halt
alone: pparties r1 root ; 2, the two children
       paaa r0 right    ; its last party, so the child arrives at the root
       pphase r2 left   ; the tree has one phase
       pdereg r3 right  ; its last party, so the child leaves the root
       pparties r4 root
       halt
