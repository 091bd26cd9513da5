; A lost meeting: ann and bob are the two parties of `meet`, and each waits there for the other. Cem isn't registered, and
; arrives all the same.
.phaser meet 2
.thread ann party
.thread bob party
.thread cem stray
party: paaa r0 meet ; arriveAndAwaitAdvance
       out r0       ; the phase that begins with it
       halt
stray: parr r0 meet ; arrive
       halt
