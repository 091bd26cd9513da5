; Ann's time runs out: the barrier breaks, also for Bob.
.barrier b 3
.thread ann main
.thread bob other
main:  ldi r1 10
       cawaitt r0 b r1
       halt
other: cawait r0 b
       halt
