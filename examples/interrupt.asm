; An interrupted status: one thread interrupts another, which waits for a flag and then looks at its status twice. The
; first look clears it.
.cell flag
.thread a main
.thread b other
main:  intr b
       ldi r0 7
       sts r0 flag
       halt
other: lds r0 flag
       beq r0 r1 other ; until the flag is set
       intrd r2        ; 1
       intrd r3        ; 0
       halt
