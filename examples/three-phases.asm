; Two threads pass three phases. The last to arrive never waits, whoever it is.
.phaser p 2
.thread left meets
.thread right arrives

meets:   paaa r0 p      ; waits for the other
         paaa r1 p      ; is the last, and goes on at once
         paaa r2 p
         halt
arrives: parr r0 p      ; is the last: the phase ends here
         paaa r1 p
         parr r2 p
         halt
