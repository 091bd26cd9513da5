; Timed waits: time is a choice of the schedule, `x0` where thread 0's wait expires. At a phaser an expiry is
; TimeoutException, 5, and nothing else; at a barrier it breaks the barrier too. Of a thread that has no timed wait it is idle.
.phaser p 1
.barrier gate 3
.thread a first
.thread b second
first:  ldi r1 10          ; the time, which has to be above 0
        try late
        pawaitt r0 p r2 r1 ; r2 is 0, the phase
        halt
late:   out r7
        cawaitt r0 gate r1
        halt
second: ldi r1 10
        cawaitt r0 gate r1
        halt
