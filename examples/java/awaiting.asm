; Awaiting without arriving, for some time; then everybody is released.
.phaser work 2
.thread ann works
.thread guard waits
works: paaa r0 work         ; work.arriveAndAwaitAdvance()
       out r0               ; prints -2147483648: phase 0, terminated
       halt
waits: ldi r1 100
       try late             ; try {
       pawaitt r0 work r7 r1 ; work.awaitAdvanceInterruptibly(0, 100, MILLISECONDS);
       halt
late:  out r7               ; } catch (TimeoutException e) { prints 5
       pforce work          ;   work.forceTermination(); }
       halt
