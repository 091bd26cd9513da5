; The index is 1 of the first to arrive, and 0 of the last.
.barrier b 2
.thread ann main
.thread bob main
main: cawait r0 b
      halt
