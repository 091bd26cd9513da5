; A phaser of two parties: its phase ends at the second arrival, whoever makes it.
.phaser p 2
.thread ann main
main: punarr r0 p
      parr r1 p
      parr r2 p
      pphase r3 p
      halt
