; An arrival returns the phase that it ends, and not the next one.
.phaser p 2
.thread ann main
.thread bob main
main: parr r0 p
      halt
