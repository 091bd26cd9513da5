; One thread waits; none after the trip, even before the first has continued.
.barrier b 2
.thread ann main
.thread bob other
main:  cawait r0 b
       halt
other: cwaiting r0 b
       cawait r1 b
       cwaiting r2 b
       halt
