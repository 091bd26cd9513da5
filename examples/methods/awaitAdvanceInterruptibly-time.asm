; The time runs out. A time of 0 is over at the call, unless the phase has ended before.
.phaser p 1
.thread ann main
main: ldi r1 10
      try late
      pawaitt r0 p r7 r1 ; r7 is 0
late: ldi r7 0
      pawaitt r0 p r7 r7
      halt
