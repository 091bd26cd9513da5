; The number of parties never changes.
.barrier b 2
.thread ann main
.thread bob other
main:  cawait r0 b
       halt
other: creset b
       cparties r0 b
       halt
