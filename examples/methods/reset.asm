; A reset breaks the generation of the waiting thread. The barrier itself isn't broken afterwards.
.barrier b 2
.thread ann main
.thread bob other
main:  cawait r0 b
       halt
other: creset b
       cbroken r1 b
       halt
