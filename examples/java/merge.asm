; A barrier with an action: the last to arrive merges the two parts.
.barrier both 2 action merge ; new CyclicBarrier(2, merge)
.cell left
.cell right
.cell total
.thread ann one
.thread bob two
one:   ldi r1 3
       sts r1 left          ; left = 3
       jmp meet
two:   ldi r1 4
       sts r1 right         ; right = 4
meet:  cawait r0 both       ; both.await()
       lds r2 total
       out r2               ; prints 7
       halt
merge: lds r1 left          ; the action: total = left + right
       lds r2 right
       add r1 r1 r2
       sts r1 total
       ret
