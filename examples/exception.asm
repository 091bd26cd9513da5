; An arrival for which no party is registered: IllegalStateException, 1, which nobody catches.
.phaser p 0
.thread a main
main: ldi r0 -5
      out r0
      parr r1 p ; throws
      halt
