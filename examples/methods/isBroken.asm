; An interrupted thread breaks the barrier as it arrives.
.barrier b 2
.thread ann main
main:  cbroken r0 b
       intr ann
       try broke
       cawait r1 b
broke: cbroken r2 b
       halt
