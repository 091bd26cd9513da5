; Ann is thread 0. She arrives, and waits for Bob for some time; a time-out is an exception, which she puts out.
.phaser table 2
.thread ann waiter
.thread bob guest
guest:  paaa r0 table
        halt
waiter: try alone
        parr r0 table
        ldi r1 10
        pawaitt r2 table r0 r1
        out r2
        halt
alone:  out r7
        halt
