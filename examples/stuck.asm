; Two threads wait for a third party that never arrives. Both have arrived, and no choice can make either of them go on.
.phaser gate 3
.thread a main
.thread b main
main: paaa r0 gate
      halt
