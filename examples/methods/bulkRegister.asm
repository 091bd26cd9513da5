; Three more parties; none; and fewer than none, which is an exception.
.phaser p 1
.thread ann main
main: ldi r0 3
      pbulk r1 p r0
      pbulk r2 p r7 ; r7 is 0
      pparties r3 p
      ldi r0 -1
      pbulk r4 p r0
      halt
