; What an interrupt does to a wait: `awaitAdvance` goes on and the status is kept; `awaitAdvanceInterruptibly` throws
; InterruptedException, 3; a wait at a barrier does so too and breaks it, so that the other throws BrokenBarrierException, 4.
.phaser p 1
.barrier gate 3
.thread a plain
.thread b open
.thread c party
.thread d party
.thread e waker
plain: pawait r0 p r1  ; r1 is 0, the phase
       intrd r2        ; 1
       halt
open:  pawaiti r0 p r1
       halt
party: cawait r0 gate
       halt
waker: intr a
       intr b
       intr c
       cbroken r0 gate
       parr r1 p       ; ends the phase
       halt
