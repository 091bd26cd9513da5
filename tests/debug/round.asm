; Four threads that go round for ever: at a child and a barrier with an action, at the barrier for a time, at a root with a
; routine, and at the root for a time.
.phaser root 1 onadvance adv
.phaser child 1 parent root
.barrier gate 2 action act
.thread first a
.thread second b
.thread third c
.thread fourth d
a: try a2
parr r0 child
cawait r1 gate
intr second
endtry
a2: jmp a
b: ldi r5 1
b1: try b2
cawaitt r0 gate r5
endtry
b2: creset gate
jmp b1
c: try c2
paaa r0 root
endtry
c2: sts r0 #0
jmp c
d: pphase r1 root
ldi r2 5
try d2
pawaitt r0 root r1 r2
endtry
d2: jmp d
adv: ldi r0 0
ret
act: lds r0 #0
ret
