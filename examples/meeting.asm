; Two threads meet at a phaser: the first to arrive waits, the last to arrive ends the phase and goes on at once.
.phaser p 2
.thread a main
.thread b main
main: paaa r0 p
out r0
halt
