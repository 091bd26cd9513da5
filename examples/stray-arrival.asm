; A stray arrival. The reader and the writer are the two parties of `done`: the reader waits there until the writer has
; stored its number. A third thread, which isn't registered, arrives all the same, and the phase ends too early: under
; stray-arrival.schedule the reader puts out 0. stray-arrival.commands is a session of the debugger that finds out why, and
; stray-arrival.session what it answers.
.phaser done 2
.cell total
.thread reader read
.thread writer write
.thread stray arrive
read:   paaa r0 done ; row 0
        lds r1 total ; row 1, where the number has to be there
        out r1
        halt
write:  ldi r0 7
        sts r0 total
        parr r1 done
        halt
arrive: parr r0 done ; row 8
        halt
