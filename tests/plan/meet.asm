; Ann is thread 0, Bob thread 1: who arrives first waits for the other. He who comes last plays three rows, the first four.
.phaser p 2
.thread ann m
.thread bob m
m: paaa r0 p
out r0
halt
