; An exception that is caught: a thread arrives where nobody is registered, catches the IllegalStateException, 1, and
; reports its code by a call.
.phaser p 0
.thread a main
main:   try caught
        parr r0 p      ; IllegalStateException: 1
        endtry
        halt
caught: call report    ; r7 holds the code
        halt
report: out r7
        ret
