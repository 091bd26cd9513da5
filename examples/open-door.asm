; Ann opens a door and waits at `meet` for bob. Bob looks once: if the door is open he comes, too; if not he goes home, and ann
; waits for ever. The schedule is the one in which bob looks too early.
.phaser meet 2
.thread ann opens
.thread bob looks
opens: ldi r0 1
       sts r0 #0
       paaa r1 meet
       halt
looks: lds r0 #0        ; the door
       beq r0 r2 gone
       paaa r1 meet
gone:  halt
