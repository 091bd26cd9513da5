; Ann waits for the end of phase 0 without being a party. Afterwards the same call returns at once.
.phaser p 1
.thread ann main
.thread bob other
main:  pawait r0 p r7 ; r7 is 0
       pawait r1 p r7
       halt
other: parr r0 p
       halt
