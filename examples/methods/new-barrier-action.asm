; The last of two to arrive runs the action before anybody continues.
.barrier b 2 action act
.thread ann main
.thread bob main
main: cawait r0 b
      halt
act:  ldi r1 7
      ret
