; A barrier with an action: the last of three to arrive runs it, before the others go on, and has its own registers back
; afterwards. `await` answers how many were still to arrive: 2, 1 and 0.
.cell message
.barrier gate 3 action act
.thread a meet
.thread b meet
.thread c last
meet: cawait r0 gate
      halt
last: ldi r1 7
      cawait r0 gate
      lds r2 message
      halt
act:  sts r1 message ; the registers are those of the thread that runs it
      ldi r1 0       ; undone at `ret`
      ret
