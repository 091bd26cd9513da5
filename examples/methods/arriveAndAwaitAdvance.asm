; The last to arrive doesn't wait. The others continue later, each by a turn of its own.
.phaser p 2
.thread ann main
.thread bob main
main: paaa r0 p
      halt
