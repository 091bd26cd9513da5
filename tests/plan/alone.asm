; The same without Bob: nobody comes.
.phaser table 2
.thread ann waiter
waiter: try alone
        parr r0 table
        ldi r1 10
        pawaitt r2 table r0 r1
        out r2
        halt
alone:  out r7
        halt
