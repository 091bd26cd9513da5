; Two meetings in different orders: ann goes to `left` and then to `right`, bob goes to `right` and then to `left`. Both
; phasers have two parties.
.phaser left 2
.phaser right 2
.thread ann one
.thread bob other
one:   paaa r0 left
       paaa r0 right
       halt
other: paaa r0 right
       paaa r0 left
       halt
