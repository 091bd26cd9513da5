; A tree for many threads: at most two at a phaser, and one phase for all.
.phaser root 0              ; new Phaser()
.phaser left 2 parent root  ; new Phaser(root, 2)
.phaser right 1 parent root ; new Phaser(root, 1)
.thread ann pair
.thread bob pair
.thread cem alone
pair:  paaa r0 left         ; left.arriveAndAwaitAdvance()
       out r0               ; prints 1
       halt
alone: pparties r0 root     ; root.getRegisteredParties()
       out r0               ; prints 2
       paaa r0 right        ; right.arriveAndAwaitAdvance()
       halt
