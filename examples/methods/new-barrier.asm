; A barrier for one thread trips at each entry.
.barrier b 1
.thread ann main
main: cawait r0 b
      cawait r1 b
      halt
