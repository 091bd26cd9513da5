; An interrupt ends the wait, and nothing changes at the phaser.
.phaser p 1
.thread ann main
.thread bob other
main:  pawaiti r0 p r7 ; r7 is 0
       halt
other: intr ann
       pphase r1 p
       halt
