; A team that joins late: ann and bob are team `red`. Team `blue` is empty until cem registers there, and no party of `both`
; before that.
.phaser both 0
.phaser red 2 parent both
.phaser blue 0 parent both
.thread ann reds
.thread bob reds
.thread cem joins
reds:  paaa r0 red  ; arriveAndAwaitAdvance
       out r0       ; the phase that begins with it
       halt
joins: preg r0 blue ; register
       out r0       ; the phase for which he did
       paaa r0 blue ; arriveAndAwaitAdvance
       out r0
       halt
