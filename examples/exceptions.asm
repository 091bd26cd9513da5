; An exception in an advance routine: it unwinds the routine and a call, and the handler below them catches it. The phase
; doesn't end, and nobody is left to arrive: the next arrival is an IllegalStateException, caught as well.
.phaser p 1 phase 3 onadvance fail
.thread a main
main:   try caught
        call arrive
        endtry
        halt
arrive: parr r0 p
        ret
fail:   ldi r3 100
        throw r3
caught: out r7         ; 100
        pphase r1 p    ; still 3
        try again
        parr r0 p
again:  out r7         ; 1
        halt
